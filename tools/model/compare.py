#!/usr/bin/env python3
"""compare.py EXECUTABLE [--first SEED] [--count N] [--patterns]

Runs `check` of the built program on N random trials (400 without the option) from this seed (1 without it) on, and
compares status and text with those of the model. With --patterns most cuts are of version 2. Of every twentieth trial
the acceptance of each short run is computed by its definition as well. Prints how many secrets had each verdict and
reason and how many let bits cross at each slot, and last how many trials agree and differ. The files and words of those
that differ are kept in a folder that is named; then the status is 1. Python 3 only."""
import collections
import sys

from comparing import FLAG, Comparison, Counts, family
from trials import random_trial
from verdicts import Command, answer

DEFINED_EACH, DEFINED_TURNS = 20, 250


def reason(judged):
    """The verdict and the reason of a judgement, without numbers."""
    words = judged.text.split()
    if judged.word == "accepted":
        return "accepted"
    begin = ["rejected", words[0]]
    if words[0] == "guest":
        begin.append(words[1])
    elif words[:2] == ["replay", "guest"]:
        begin += words[1:3]
    elif words[0] == "replay":
        begin += ["region", "outside"] if words[1] == "region" else words[1:2]
    elif words[0] == "region":
        begin.append("outside" if words[2] == "range" else words[2])
        begin += ["register" if words[3][0] == "x" else "byte"] if words[2] == "undeclared" else []
    elif words[0] == "parted":
        middle = words.index("replay")
        marks = zip(words[2:middle], words[middle + 1 :])
        names = "address", "", "bits", "", "output", "exited"
        begin.append(" and ".join(name for name, (real, replay) in zip(names, marks) if name and real != replay))
    return " ".join(begin)


class Judgements(Counts):
    """What the trials had."""

    def __init__(self):
        super().__init__()
        self.accepted_slots = collections.Counter()

    def slot_words(self, slot):
        """What is said of a slot."""
        return f"with bits at {slot}, accepted {self.accepted_slots[slot]}"

    def add(self, judgements):
        """Counts the judgements of a trial."""
        for judged in judgements:
            self.kinds[reason(judged)] += 1
            slots = {family(slot) for slot in judged.slots}
            self.slots.update(slots)
            self.others["secrets"] += 1
            self.others["judged past the leave of a region"] += "leave" in judged.kinds
            self.others["judged past a skipped region"] += "skip" in judged.kinds
            if judged.word == "accepted":
                self.accepted_slots.update(slots)
                self.others["accepted with crossing bits"] += bool(judged.bits)


class Checks(Comparison):
    """The comparison of `check`."""

    name, wants_program, options, counted = "model", True, {"--patterns": FLAG}, Judgements

    def try_trial(self, seed):
        """Makes one trial."""
        files, check = random_trial(seed, self.words.patterns)
        command = Command(files, check)
        judgements = command.judgements()
        self.counts.add(judgements)
        expected, given = answer(judgements, command.budget), self.given(files, "check", *check)
        texts = [f"{given} for {expected}"] if expected != given else []
        if seed % DEFINED_EACH == 0:
            tried, wrong = command.disagreements(judgements, DEFINED_TURNS)
            self.counts.others["judged by the definition of acceptance too"] += tried
            texts += [f"judged otherwise by the definition of acceptance: {wrong}"] if wrong else []
        return files, ["check", *check], texts, {"model": expected, "program": given}


if __name__ == "__main__":
    sys.exit(Checks.main(__doc__))
