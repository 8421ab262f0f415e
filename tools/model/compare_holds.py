#!/usr/bin/env python3
"""compare_holds.py [EXECUTABLE] [--first SEED] [--count N] [--any-public]

Bounds the outputs of N random guests (400 without the option) from this seed (1 without it) on by `bound --hold`, by
the model: guests whose regions look secrets up, compare, sort and loop by them. Every second one is bounded with
--any-public too, all with the option. Where a guest is bounded, secrets are run: all of one byte, else 60 at random,
and some public inputs. No region may be broken but by a range outside memory, a run may be stopped or not exit only
where a path stops, and each other output must be one of the list. The number of outputs must be within the budget.

With an executable, its `bound` must answer as the model does: the whole text where that is bounded, else the status and
the path.

Prints what the trials had: the kinds of answers, reasons, and of regions that held how many endings, joins and pieces
that waited. The files and words of those that differ are kept in a folder that is named; then the status is 1."""
import random
import sys

from bound_trials import mended, task_of
from bounds import Bounds, Task, stands_for
from comparing import FLAG, Comparison
from held_guests import held_guest, regions_file
from program_files import BASE
from programs import random_bytes
from verdicts import MOST_BUDGET, real_run

WALKS, SECRETS, TURNS = 300, 60, 3000


def held_trial(seed, is_any):
    """The files and the words of a trial."""
    dice = random.Random(f"held {seed}")
    file, regions, cut, image = held_guest(dice)
    table, turns = dice.choice([1, 2, 3, 3]), dice.choice([TURNS] * 6 + [60, 200])
    is_any, public = is_any or dice.random() < 0.5, random_bytes(dice, dice.choice([0, 1, 2]))
    if dice.random() < 0.85:
        cut = mended(Task(image, public, regions, cut, table, MOST_BUDGET, turns, 200, is_any, True))
    budget = dice.choice([MOST_BUDGET] * 8 + [8, 3])
    files = {"program": file, "public": public, "cut": cut.text().encode(), "regions": regions_file(regions)}
    words = ["bound", "program", "public", "cut", str(budget), "--regions", "regions", "--hold", "--list"]
    words += ["--rules", str(table), "--turns", str(turns), "--paths", str(WALKS), *["--any-public"] * is_any]
    return files, words


def reason_of(bounds):
    """The kind of an answer, without numbers."""
    if not bounds.unclear:
        return "bounded"
    words = [word for word in bounds.unclear.split()[4:] if not word[0].isdigit() and not word.startswith("x")]
    return " ".join(["unclear", *words[:3]])


def some_of(number):
    """A number of endings, in a few classes."""
    return "1" if number == 1 else "2 to 63" if number < 64 else "64"


class HoldTrials(Comparison):
    """The comparison of `bound --hold`."""

    name, options = "holds", {"--any-public": FLAG}

    def add(self, bounds):
        """Counts the answer of a trial."""
        kinds = self.counts.kinds
        kinds[reason_of(bounds)] += 1
        kinds["bounded with regions that held"] += not bounds.unclear and bool(bounds.task.runs)
        kinds["bounded with fewer outputs than paths"] += not bounds.unclear and bounds.outputs() < bounds.paths
        for run in bounds.task.runs:
            kinds[f"region held with {some_of(len(run.endings))} endings"] += 1
            kinds["region held with joins"] += run.joins > 0
            kinds["region held with 10 pieces or more that waited"] += run.most_waiting >= 10

    def pairs(self, seed, task):
        """Public inputs and secrets to be run."""
        dice, length = random.Random(f"secrets {seed}"), task.cut.secret_length
        publics = [task.public] + [random_bytes(dice, len(task.public)) for _ in range(2)] * task.is_any_public
        for public in publics:
            secrets = [bytes([byte]) for byte in range(256)] if length == 1 else [
                bytes(dice.choice([dice.randrange(256), dice.randrange(8), 0, 255]) for _ in range(length))
                for _ in range(SECRETS)]
            yield from ((public, secret) for secret in secrets)

    def wrongs(self, seed, bounds):
        """What is wrong with a guest that is bounded."""
        task = bounds.task
        if bounds.outputs() > 1 << task.budget:
            yield f"{bounds.outputs()} outputs with a budget of {task.budget}"
        for public, secret in self.pairs(seed, task):
            real = real_run(task.image, public, secret, task.regions, task.turns)
            kind, what = real.ending
            self.counts.kinds[f"secrets: {kind}"] += 1
            name = f"the run of public {public.hex()} secret {secret.hex()}"
            if kind == "break" and not what.endswith("outside"):
                yield f"{name} breaks a region: {what}"
            elif kind != "exited" and not bounds.stopped:
                yield f"{name} ends as {kind} {what}"
            elif kind == "exited" and not any(
                    stands_for(pattern, bytes(real.guest.output), what) for pattern in bounds.patterns):
                yield f"{name} has the output {bytes(real.guest.output).hex()} status {what}, which is not listed"

    def differs(self, bounds, given):
        """What is wrong with the answer of the program."""
        status, text = bounds.text(True)
        if given == (status, text) or status == given[0] == 1 and given[1].split()[:5] == text.split()[:5]:
            return []
        return [f"bound {given} for {(status, text)}"]

    def try_trial(self, seed):
        """Makes one trial."""
        files, words = held_trial(seed, self.words.any_public)
        bounds = Bounds(task_of(files, words))
        self.add(bounds)
        texts = [] if bounds.unclear else list(self.wrongs(seed, bounds))[:3]
        if self.words.executable:
            texts += self.differs(bounds, self.given(files, *words))
        return files, words, texts


if __name__ == "__main__":
    sys.exit(HoldTrials.main(__doc__))
