#!/usr/bin/env python3
"""wrong_models.py [COMMAND..] [--first SEED] [--count N]

Says how sharp the random trials are: of each command, or of those that are named, makes N trials (as many as its table
says without the option) from this seed (1) on with models that are wrong in one thing each. Prints for each in how many
trials its answer is another than that of the right model, and last how many were told apart. Of `bound` it counts too
in how many trials the secrets that compare_bounds.py tries refute the answer without the right model. The commands are
check, measure (also `graph`, by tables 1 and 2, with and without the fold), taint, learn, measure-all and bound. No
program is run: one that is wrong in the same thing would differ in as many trials. Python 3 only."""
import argparse
from unittest.mock import patch

import wrong_bounds
import wrong_checks
import wrong_measures
import wrong_others

KINDS = {
    "check": (400, wrong_checks.WRONG, wrong_checks.trials, wrong_checks.answer),
    "measure": (200, wrong_measures.WRONG, wrong_measures.trials, wrong_measures.answer),
    "taint": (300, wrong_others.TAINT, wrong_others.taint_trials, wrong_others.answer),
    "learn": (300, wrong_others.LEARN, wrong_others.learn_trials, wrong_others.answer),
    "measure-all": (300, wrong_others.MANY, wrong_others.many_trials, wrong_others.answer),
    "bound": (100, wrong_bounds.WRONG, wrong_bounds.trials, wrong_bounds.answer),
}
"""How many trials are usual; the wrong models, each with a name, the table, class or module of which parts are others,
and these; what makes the trials of some seeds; and the answer to one, with secrets also whether they refute it."""
HAS_SECRETS = {"bound"}
FAILURES = AssertionError, IndexError, KeyError, TypeError, ValueError


def changed(owner, parts):
    """The model with other entries of a table, or with other attributes of a class or module."""
    return patch.dict(owner, parts) if isinstance(owner, dict) else patch.multiple(owner, **parts)


def answers(command, trials, answer):
    """The answers of the model as it is, or what stops it, and whether secrets refute it."""
    for trial in trials:
        try:
            given = answer(trial)
            yield given if command in HAS_SECRETS else (given, False)
        except FAILURES as failure:
            yield repr(failure), False


def try_command(command, first, count):
    """Tries every wrong model of a command."""
    usual, wrong, make_trials, answer = KINDS[command]
    trials = make_trials(range(first, first + (usual if count is None else count)))
    right = list(answers(command, trials, answer))
    assert not any(is_refuted for _, is_refuted in right), "secrets refute the right model"
    missed = refuted = 0
    for name, owner, parts in wrong:
        with changed(owner, parts):
            given = list(answers(command, trials, answer))
        others = sum(one != expected for (one, _), (expected, _) in zip(given, right))
        against = sum(is_refuted for _, is_refuted in given)
        missed, refuted = missed + (not others), refuted + bool(against)
        told = f", {against:3} refuted" if command in HAS_SECRETS else ""
        print(f"{others:6} of {len(trials)}{told}  {command}: {name}", flush=True)
    told = f"; {refuted} refuted by secrets" if command in HAS_SECRETS else ""
    print(f"{len(wrong) - missed} wrong models told apart, {missed} not{told}", flush=True)


def command_name(word):
    """A command of which there are wrong models, for argparse."""
    if word not in KINDS:
        raise argparse.ArgumentTypeError(f"{word} is none of {', '.join(KINDS)}")
    return word


def main():
    """Reads the words of the command and tries the wrong models."""
    parser = argparse.ArgumentParser(description=__doc__, formatter_class=argparse.RawDescriptionHelpFormatter)
    parser.add_argument("commands", nargs="*", type=command_name, metavar="COMMAND")
    parser.add_argument("--first", type=int, default=1, metavar="SEED")
    parser.add_argument("--count", type=int, metavar="N")
    words = parser.parse_args()
    for name in words.commands or KINDS:
        try_command(name, words.first, words.count)


if __name__ == "__main__":
    main()
