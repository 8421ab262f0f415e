#!/usr/bin/env python3
"""compare_taints.py [EXECUTABLE] [--first SEED] [--count N] [--table N]

Looks at the secrets of N random trials (400 without the option) from this seed (1 without it) on with one machine, by
the model, by any table of mask rules or by the one that is named. Half of the cuts are those of the trials of `check`,
half are measured of the first secret. Each clean secret must be accepted by the model of `check` with the same bits and
output. With an executable, its `taint` must answer as the model does, and its `check` must accept each clean secret
with the same bits and output.

Prints how many secrets had each finding and reason and how many let bits cross at each slot, and last how many trials
agree and differ. The files and words of those that differ are kept in a folder that is named; then the status is 1."""
import random
import sys

from answers import findings_of, read_words
from comparing import Comparison, Counts, difference, family, number_option
from cuts import places_of, point_order, read_cut, read_regions, slot_width
from measures import Measured, Refused
from taints import taint_answer
from trial_cuts import joined
from trials import random_guest, random_trial, spelled, usual_options
from verdicts import MOST_BUDGET, Command
from ways import ways_program


def measured_trial(dice, table):
    """The files of a trial by name, and the words behind the command; the cut is measured of the first secret."""
    while True:
        make = ways_program if dice.random() < 0.4 else None
        _, file, (image, public, secrets), regions, limit, _ = random_guest(dice, dice.random() < 0.75, make)
        try:
            measured = Measured(image, public, secrets[0], regions, table, limit)
        except Refused:
            continue
        cut = measured.cut() if dice.random() < 0.8 else measured.cut().folded()
        budget = dice.choice([measured.bits] * 3 + [max(measured.bits - 1, 0), measured.bits + 8, MOST_BUDGET])
        files = {"program": file, "public": public, "cut": cut.text().encode()}
        files |= {f"secret{number}": secret for number, secret in enumerate(secrets, 1)}
        given, options = usual_options(dice, regions, limit)
        words = ["program", "public", "cut", str(budget), *list(files)[3:], *spelled(dice, options)]
        return files | given, words


def without_bit(dice, runs, width):
    """Runs of masks, of which one lacks a bit."""
    masks, place = [list(run) for run in runs], dice.randrange(len(runs))
    bits = places_of(masks[place][1] & width)
    masks[place][1] &= ~dice.choice(bits) if bits else 0
    return joined([tuple(run) for run in masks])


def spoilt(dice, cut, regions):
    """A cut that lacks a point or a bit of one, or that has points inside a skipped region."""
    kind = dice.random()
    inner = [region for region in regions if region.number in cut.skip]
    if inner and kind < 0.4:
        region = dice.choice(inner)
        for address in range(region.enter, region.enter + 40, 4):
            point = region.number, address, dice.choice(["u1", "u2", "rs", "de"])
            cut.points[point] = [], [(1, slot_width(point[2]))]
    elif cut.points and kind < 0.7:
        del cut.points[dice.choice(sorted(cut.points, key=point_order))]
    elif cut.points:
        point = dice.choice(sorted(cut.points, key=point_order))
        runs, rest = cut.points[point]
        rest = without_bit(dice, rest, slot_width(point[2]))
        cut.points[point] = without_bit(dice, runs, slot_width(point[2])) if runs else runs, rest
    return cut


def taint_trial(seed, wanted=0):
    """The files of a trial, the words behind `check`, and those of `taint` beside them; perhaps by a wanted table."""
    dice = random.Random(f"taint {seed}")
    rules = dice.choice([[], ["--rules", "1"], ["--rules=2"], ["--rules", "2"], ["--rules=3"], ["--rules", "3"]])
    is_measured = dice.random() < 0.5
    rules = ["--rules", str(wanted)] if wanted else rules
    table = wanted or dice.choice([1, 2, 3])
    files, words = measured_trial(dice, table) if is_measured else random_trial(dice.randrange(1 << 40), seed % 2)
    if dice.random() < 0.4:
        regions = read_regions(files["regions"]) if "regions" in files else []
        files["cut"] = spoilt(dice, read_cut(files["cut"]), regions).text().encode()
        words[3] = str(MOST_BUDGET) if dice.random() < 0.6 else words[3]
        needed = [finding.needed for finding in findings(files, words, rules)[0] if finding.text.startswith("left")]
        if any(needed) and dice.random() < 0.5:
            words[3] = str(max(needed) - dice.choice([0, 1, 1]))
    return files, words, rules


def findings(files, words, rules):
    """What the model finds of each secret, and the budget."""
    command = ["taint", *words, *rules]
    return findings_of(files, command, *read_words(command)[1:])


def reason(finding):
    """A finding and its reason, without numbers."""
    words = finding.text.split()
    if finding.word == "clean":
        return "clean"
    if words[0] == "region":
        return f"unclear region {words[2]}"
    return f"unclear {words[0]} {words[1] if words[0] == 'guest' else words[3] if words[0] == 'left' else ''}".rstrip()


class Findings(Counts):
    """What the trials had."""

    def slot_words(self, slot):
        """What is said of a slot."""
        return f"clean with bits at {slot}"

    def add(self, found, judgements, rules, regions):
        """Counts the findings of a trial."""
        for finding, judged in zip(found, judgements):
            self.kinds[reason(finding)] += 1
            self.slots.update({family(slot) for slot in finding.slots})
            self.others["secrets"] += 1
            self.others["accepted and not clean"] += judged.word == "accepted" and finding.word == "unclear"
            if finding.word == "clean":
                self.others["clean with crossing bits"] += bool(finding.bits)
                self.others[f"clean by table {rules}"] += 1
                self.others["clean with regions"] += bool(regions)
                self.others["clean past a skipped region"] += "skip" in judged.kinds
                self.others["clean past the leave of a region"] += "leave" in judged.kinds


def model_wrongs(found, judgements):
    """What is wrong with the findings of the model: a clean secret must be accepted with the same bits and output."""
    for number, (finding, judged) in enumerate(zip(found, judgements), 1):
        if finding.word == "clean" and (judged.word, judged.text) != ("accepted", finding.text):
            yield f"secret {number} is clean {finding.text}, and {judged.word} {judged.text}"


def program_wrongs(folder, found, budget, words, rules):
    """What is wrong with the answers of the program."""
    yield from difference("taint", folder.run("taint", *words, *rules), taint_answer(found, budget))
    lines = folder.run("check", *words)[1].split("\n")
    for number, finding in enumerate(found, 1):
        if finding.word == "clean" and f"accepted {number} {finding.text}" not in lines:
            yield f"check of clean secret {number}: {lines}"


class Taints(Comparison):
    """The comparison of `taint`."""

    name, options, counted = "taints", {"--table": number_option(0)}, Findings

    def try_trial(self, seed):
        """Makes one trial."""
        files, words, rules = taint_trial(seed, self.words.table)
        found, budget = findings(files, words, rules)
        judgements = Command(files, words).judgements()
        self.counts.add(found, judgements, int(rules[-1][-1]) if rules else 1, "regions" in files)
        wrongs = list(model_wrongs(found, judgements))
        if self.words.executable:
            with self.folder(files) as folder:
                wrongs += program_wrongs(folder, found, budget, words, rules)
        return files, ["taint", *words, *rules], wrongs


if __name__ == "__main__":
    sys.exit(Taints.main(__doc__))
