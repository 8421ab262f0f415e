#!/usr/bin/env python3
"""compare_learns.py [EXECUTABLE] [--first SEED] [--count N] [--minimal-each N]

Learns the regions of N random guests (400 without the option) from this seed (1 without it) on, by the model. Of every
fifth trial, or as --minimal-each says, nothing can be left out: with what is learnt the run breaks no region, and
without any one register, range or byte, or with an output kept, it breaks as it must. With an executable, its `learn`
must answer as the model does, and its `check` must say the same of what is left out.

Prints what the trials had, and last how many agree and differ. The files and words of those that differ are kept in a
folder that is named; then the status is 1."""
import random
import re
import sys

from answers import answer_to
from comparing import Comparison, difference, number_option
from cuts import Cut, read_regions
from guest import Image, Region
from learns import regions_text
from program_files import BASE, plain_file
from refusals import MOST_RANGES
from trial_regions import region_file
from trials import random_guest, spelled, usual_options
from verdicts import MOST_BUDGET, USUAL_TURNS, real_run
from ways import ways_program
from words import ECALL, Writer, immediate_word, store_word

MOST_LEFT_OUT, FEW_LEFT_OUT = 400, 20
DATA, POINTER, LEFT = 0x80000, 6, 5
WIDE = [(63, 2, 0, 1), (64, 2, 0, 1), (65, 2, 0, 1), (16_384, 4, 2, 1), (64, 2, 0, 3), (16_385, 4, 2, 1),
        (64, 2, 0, 34), (64, 2, 0, 33), (64, 2, 0, 35), (65, 3, 0, 2)]
"""How often a loop stores, how far apart and how wide, and how many loops there are."""


def wide_trial(dice):
    """A guest with loops that write about as many ranges or bytes, or make as long a text, as there may be."""
    program, regions = Writer(dice, BASE, DATA), []
    count, stride, minor, loops = dice.choice(WIDE)
    for number in range(1, loops + 1):
        program.put_number(POINTER, DATA + 256 * number)
        program.put_number(LEFT, count)
        begin = program.here
        program.put(store_word(minor, POINTER, 0, 0), immediate_word(0, POINTER, POINTER, stride))
        program.put(immediate_word(0, LEFT, LEFT, -1))
        program.place(program.put_branch(1, LEFT, 0), begin)
        regions.append(Region(number, begin, program.here))
    program.put(immediate_word(0, 17, 0, 93), ECALL)
    files = {"program": plain_file(program.body()), "public": b"", "secret": b"", "regions": region_file(dice, regions)}
    return files, ["program", "public", "secret", "regions"]


def learn_trial(seed):
    """The files of a trial by name, and the words behind `learn`."""
    dice = random.Random(f"learn {seed}")
    if dice.random() < 0.03:
        return wide_trial(dice)
    make = ways_program if dice.random() < 0.3 else None
    _, file, (_, public, secrets), regions, limit, _ = random_guest(dice, dice.random() < 0.5, make)
    _, options = usual_options(dice, [], limit)
    files = {"program": file, "public": public, "secret": secrets[0], "regions": region_file(dice, regions)}
    turns = [option for option in options if option[0] == "--turns"]
    return files, ["program", "public", "secret", "regions", *spelled(dice, turns)]


def limit_of(words):
    """The limit of turns of a trial."""
    return next((int(re.split("[= ]", " ".join(words[place:]))[1]) for place, word in enumerate(words)
                 if word.startswith("--turns")), USUAL_TURNS)


def whole_cut(files, regions, limit):
    """A cut at which all of the secret crosses that the run reads: with it both runs are the same."""
    run = real_run(Image(files["program"]), files["public"], files["secret"], regions, limit)
    points = {visit[:3] for turn in run.turns for visit in turn.visits if visit[2] == "in"}
    return Cut(len(files["secret"]), points={point: ([], [(1, 255)]) for point in points})


def changed(region, **parts):
    """A region with other parts."""
    kept = {"outs": region.outs, "keep": region.keep, "ranges": region.ranges} | parts
    return Region(region.number, region.enter, region.leave, **kept)


def without(items, place):
    """Items without the one at a place."""
    return items[:place] + items[place + 1 :]


def without_byte(ranges, place, index):
    """Ranges without a byte of one of them."""
    _, begin, length = ranges[place]
    pieces = [(None, begin, index), (None, begin + index + 1, length - index - 1)]
    return ranges[:place] + [piece for piece in pieces if piece[2]] + ranges[place + 1 :]


def shortened(region):
    """Each way to leave one thing of a region out, with the form of the break that must come."""
    number = region.number
    for key in ("outs", "keep"):
        for place, register in enumerate(getattr(region, key)):
            form = rf"region {number} undeclared x{register} at 0x[0-9a-f]{{8}}"
            yield changed(region, **{key: without(getattr(region, key), place)}), form
    for place, register in enumerate(region.outs):
        kept = changed(region, outs=without(region.outs, place), keep=[*region.keep, register])
        yield kept, rf"region {number} keep x{register} before 0x[0-9a-f]{{8}} after 0x[0-9a-f]{{8}}"
    for place, (_, begin, length) in enumerate(region.ranges):
        for index in range(length) if len(region.ranges) < MOST_RANGES or length == 1 else (0, length - 1):
            left = changed(region, ranges=without_byte(region.ranges, place, index))
            yield left, rf"region {number} undeclared 0x{begin + index:08x} at 0x[0-9a-f]{{8}}"
        left = changed(region, ranges=without(region.ranges, place))
        yield left, rf"region {number} undeclared 0x[0-9a-f]{{8}} at .*"


def left_out(regions):
    """Each way to leave one thing out, as regions."""
    for place, region in enumerate(regions):
        for other, form in shortened(region):
            yield regions[:place] + [other] + regions[place + 1 :], form


class Minimal:
    """What is left out of what was learnt, and how a check judges that."""

    def __init__(self, files, words, text):
        limit = limit_of(words)
        self.files, self.learnt = dict(files), read_regions(text.encode())
        self.files["cut"] = whole_cut(files, self.learnt, limit).text().encode()
        turns = ["--turns", str(limit)]
        self.words = ["check", "program", "public", "cut", str(MOST_BUDGET), "secret", "--regions", "part", *turns]
        self.parts = list(left_out(self.learnt))

    def sample(self, dice):
        """Of what can be left out everything, or, where that is much, a few."""
        return self.parts if len(self.parts) <= MOST_LEFT_OUT else dice.sample(self.parts, FEW_LEFT_OUT)

    def wrongs(self, judge, dice):
        """What is wrong with what was learnt."""
        text = judge(self.with_part(self.learnt))
        if not text.startswith("accepted 1 "):
            yield f"what is learnt is judged {text}"
        for regions, form in self.sample(dice):
            line = judge(self.with_part(regions)).split("\n")[0]
            if not re.fullmatch(f"rejected 1 {form}", line):
                yield f"{form} is {line}"

    def with_part(self, regions):
        """The files with these regions."""
        return self.files | {"part": regions_text(regions).encode()}


class Learns(Comparison):
    """The comparison of `learn`."""

    name, options = "learns", {"--minimal-each": number_option(5)}

    def judge_of(self, minimal):
        """How the program judges files, or the model where there is none."""
        if self.words.executable:
            return lambda files: self.given(files, *minimal.words)[1]
        return lambda files: answer_to(files, minimal.words)[1]

    def minimal_wrongs(self, seed, files, words, text):
        """What is wrong with what is left out."""
        minimal = Minimal(files, words, text)
        self.counts.kinds["entries left out in turn"] += len(minimal.sample(random.Random(0)))
        self.counts.kinds["guests of which entries are left out"] += bool(minimal.parts)
        return list(minimal.wrongs(self.judge_of(minimal), random.Random(f"left out {seed}")))

    def try_trial(self, seed):
        """Makes one trial."""
        files, words = learn_trial(seed)
        command, texts = ["learn", *words], []
        expected = answer_to(files, command)
        self.count(*expected)
        if self.words.executable:
            texts += difference("learn", self.given(files, *command), expected)
        if expected[0] == 0 and seed % self.words.minimal_each == 0:
            texts += self.minimal_wrongs(seed, files, words, expected[1])
        return files, command, texts

    def count(self, status, text):
        """Counts an answer."""
        counts = self.counts.kinds
        if status:
            words = text.split()[2:]
            counts[f"refused {words[2] if words[0] == 'region' else words[0]}"] += 1
            return
        regions = read_regions(text.encode())
        counts["learnt"] += 1
        counts["with regions"] += bool(regions)
        for key in ("outs", "keep", "ranges"):
            counts[f"with {key}"] += any(getattr(region, key) for region in regions)
        counts["with several ranges"] += any(len(region.ranges) > 1 for region in regions)


if __name__ == "__main__":
    sys.exit(Learns.main(__doc__))
