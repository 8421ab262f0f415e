#!/usr/bin/env python3
"""compare_bounds.py [EXECUTABLE] [--first SEED] [--count N] [--secrets N] [--any-public] [--loops] [--tables N,..]
[--paths N] [--random]

Bounds the outputs of N random guests (400 without the option) from this seed (1 without it) on, over all secrets, by
the model, by each table of the mask rules or those named, and before them of some guests that were made by hand. Of the
cuts some are measured of a secret, some of several, some made at random, and some get the lines at which a walk of
theirs was unclear. Where a guest is bounded, random secrets of the cut's length are tried, 50 without the option: each
must be accepted by the model of `check` and have an output of the list, or its run must be stopped, break a region or
not exit. Without regions and stops each must be accepted. The number of outputs must be within the budget.

With --any-public each is bounded with that flag. Then 20 random public inputs of the length are tried, with three
secrets each. Of secrets of one byte all 256 are run three times, each time with the public input that a random rule
chooses by the outputs so far: no more lists of outputs may arise than the bound allows. With --loops all guests are
loops that come to the same state on several paths, and with --paths each trial has this limit of walks. With --random
no guest is one that was made by hand.

The model makes as many walks as the answer takes, at most 500 (300 with --any-public) or what the trial's --paths says.
Where it finds at most 256 paths it walks each of them too, which must come to the same.

With an executable, its `bound` must answer as the model does, also where a bounded guest's cut lacks one of its points,
and its `check` of the same secrets. Where there are more paths than --paths says, `bound` may also answer `paths`, with
a string at which a path begins and behind which one is left.

Prints what the trials had, how often walks came to a state again, and last how many agree and differ. The files and
words of those that differ are kept in a folder that is named; then the status is 1."""
import collections
import random
import sys

from answers import read_words
from bound_trials import Wanted, bound_trial, lacking, task_of
from bounds import Bounds, Walk, path_of, path_text, stands_for
from comparing import FLAG, Comparison, Counts, difference, family, number_option, show_counts
from kept_guests import kept_trials
from met_guests import met_trials
from public_guests import public_trials
from range_guests import range_trials
from rule_runs import lists_wrongs
from taints import find
from trial_pairs import tried_pairs
from verdicts import answer, judge, real_run

ENDINGS = {"exited": "exits", "fault": "is stopped", "break": "breaks a region", "unfinished": "does not exit"}
MOST_WALKS, FEW_WALKS, EACH_WALKED = 500, 300, 256


def kind_of(bounds):
    """The kind of an answer, without numbers."""
    if not bounds.unclear:
        return "bounded"
    reason = bounds.unclear.split()[4:]
    word = {"left": reason[3:4], "region": reason[2:3]}.get(reason[0], [])
    return " ".join(["unclear", reason[0], *word])


def whole(task):
    """The answer of the whole tree, as far as so many walks come to it."""
    return Bounds(task, max(task.paths, FEW_WALKS if task.is_any_public else MOST_WALKS))


def is_many(bounds):
    """Whether there are more paths than walks may be made."""
    return bounds.paths > bounds.task.paths


def is_limited(task, status, text):
    """Whether a text says that the walks were not enough, with a string at which a path begins and one is left."""
    words = text.split()
    if status != 1 or words[:2] != ["unclear", "path"] or words[5:] != ["paths", str(task.paths)]:
        return False
    bits = path_of(text)
    walk = Walk(task, bits).run()
    return text == f"unclear {path_text(bits)} paths {task.paths}\n" and walk.choices[: len(bits)] == bits and 0 in bits


def table_numbers(text):
    """Tables of the mask rules, for argparse."""
    return tuple(map(int, text.split(",")))


class Answers(Counts):
    """What the trials had."""

    def __init__(self):
        super().__init__()
        self.meetings = collections.Counter()

    def slot_words(self, slot):
        """What is said of a slot."""
        return f"bounded with {slot} in the cut"

    def add(self, bounds):
        """Counts the answer of a trial."""
        task = bounds.task
        self.kinds[kind_of(bounds)] += 1
        self.meetings.update(bounds.meetings)
        if not bounds.unclear:
            self.slots.update({family(point[2]) for point in task.cut.points})
            skipped = set(task.cut.skip) & {region.number for region in task.regions}
            self.kinds.update({f"bounded {name}": int(holds) for name, holds in {
                f"by table {task.table}": True,
                "by several paths": bounds.paths > 1,
                "with several outputs": bounds.outputs() > 1,
                "with fewer outputs than paths": bounds.outputs() < bounds.paths,
                "with free bits": any(any(one[2]) or one[3] for one in bounds.patterns),
                "with stops": bool(bounds.stopped),
                "with states that are met": bool(bounds.meetings["met"]),
                "of any public input": task.is_any_public,
                "with more paths than walks may be made": is_many(bounds),
                "with regions": bool(task.regions),
                "with a skipped region": bool(skipped),
                "without regions and stops": not task.regions and not bounds.stopped,
            }.items()})

    def show(self):
        """Prints the counts."""
        show_counts(self.kinds)
        self.kinds = self.meetings
        super().show()


class BoundTrials(Comparison):
    """The comparison of `bound`."""

    name, counted = "bounds", Answers
    tables = {"type": table_numbers, "default": (1, 2, 3), "metavar": "N,.."}
    options = {"--secrets": number_option(50), "--tables": tables, "--paths": number_option(0)}
    options |= dict.fromkeys(("--any-public", "--loops", "--random"), FLAG)

    def each_wrongs(self, bounds):
        """What is wrong where each path is walked."""
        if bounds.paths <= EACH_WALKED:
            self.counts.kinds["each path walked too"] += 1
            each = Bounds(bounds.task, EACH_WALKED + 1, False)
            if (each.text(True), each.paths) != (bounds.text(True), bounds.paths):
                yield f"{bounds.text(True)}, but each path walked {each.text(True)}"

    def secret_wrongs(self, bounds, pair, judged, real):
        """What is wrong with a public input and a secret of a bounded guest."""
        task, ending, name = bounds.task, ENDINGS[real.ending[0]], " secret ".join(map(bytes.hex, pair))
        self.counts.kinds[f"secrets: run {ending}"] += 1
        if real.ending[0] != "exited":
            if not task.regions and not bounds.stopped:
                yield f"the run of public {name} {ending}"
            return
        if judged.word != "accepted":
            yield f"public {name} is {judged.word} {judged.text}"
            return
        written, status = bytes(real.guest.output), real.ending[1]
        if not any(stands_for(pattern, written, status) for pattern in bounds.patterns):
            yield f"public {name} has the output {written.hex()} status {status}, which is not listed"
        found = find(task.image, *pair, task.regions, task.cut, task.table, task.budget, task.turns)
        self.counts.kinds["secrets: accepted and clean"] += found.word == "clean"
        self.counts.kinds["secrets: accepted and not clean"] += found.word != "clean"

    def bounded_wrongs(self, seed, bounds):
        """What is wrong with a guest that is bounded, and for each public input the secrets that were tried with their
        judgements."""
        task, dice, wrongs, judged = bounds.task, random.Random(f"secrets {seed}"), [], []
        if bounds.outputs() > 1 << task.budget:
            wrongs.append(f"{bounds.outputs()} outputs with a budget of {task.budget}")
        for public, secrets in tried_pairs(dice, task, self.words.secrets):
            judgements = []
            for secret in secrets:
                real = real_run(task.image, public, secret, task.regions, task.turns)
                rest = task.regions, task.cut, task.budget, task.turns
                judgements.append(judge(task.image, public, secret, *rest, real))
                wrongs += self.secret_wrongs(bounds, (public, secret), judgements[-1], real)
            judged.append((public, secrets, judgements))
        if task.is_any_public and task.cut.secret_length == 1:
            wrongs += lists_wrongs(seed, bounds, self.counts.kinds)
        return wrongs, judged

    def program_wrongs(self, files, words, bounds, judged):
        """What is wrong with the answers of the program."""
        _, plain, options = read_words(words)
        kept = [f"{name}={options[name]}" for name in ("--regions", "--turns") if name in options]
        with self.folder(files) as folder:
            expected, given = bounds.text("--list" in options), folder.run(*words)
            if not (is_many(bounds) and is_limited(bounds.task, *given)):
                yield from difference("bound", given, expected)
            self.counts.kinds["bound: the walks were not enough"] += given != expected
            for public, secrets, judgements in judged:
                named = {f"secret{number}": secret for number, secret in enumerate(secrets, 1)}
                folder.write(named | {"public": public})
                for first in range(0, len(named), 64):
                    some = list(named)[first : first + 64]
                    expected = answer(judgements[first : first + 64], plain[3])
                    yield from difference("check", folder.run("check", *plain, *some, *kept), expected)

    def try_trial(self, name, files, words, expected=None):
        """Makes one trial; of one that was made by hand the text is known."""
        bounds = whole(task_of(files, words))
        self.counts.add(bounds)
        texts, judged = list(self.each_wrongs(bounds)), []
        if expected is not None and bounds.text("--list" in words)[1] != expected:
            texts.append(f"{bounds.text('--list' in words)} for {expected}")
        if not bounds.unclear:
            wrongs, judged = self.bounded_wrongs(name, bounds)
            texts += wrongs
        if self.words.executable:
            texts += self.program_wrongs(files, words, bounds, judged)
        without = None if bounds.unclear else lacking(name, files, bounds.task)
        if without:
            less = whole(task_of(without, words))
            texts += self.each_wrongs(less)
            self.counts.kinds[f"without a point: {kind_of(less)}"] += 1
            texts += self.program_wrongs(without, words, less, []) if self.words.executable else []
        return files, words, texts

    def trials(self):
        """The trials that were made by hand, those by table 3 only where that is wanted, and the random ones."""
        words = self.words
        if not words.random:
            yield from kept_trials() + met_trials() + public_trials()
            yield from range_trials() if 3 in words.tables else []
        wanted = Wanted(words.tables, words.any_public, words.loops, words.paths)
        for (seed,) in super().trials():
            yield str(seed), *bound_trial(seed, wanted)


if __name__ == "__main__":
    sys.exit(BoundTrials.main(__doc__))
