#!/usr/bin/env python3
"""Compares the three tables of mask rules over guests.

Call: rules_table.py [--random N] [--first SEED] [--guest NAME...] [--compiler NAME] [--paths N] [--flowcheck COMMAND]

Of each guest of bound_table.py it measures one secret by each table, and looks for a cut with which `bound` answers by
that table, as bound.py does. Prints the bits that were measured and the outputs, `-` where `bound` gives up and `2^64`
for as many or more. Then it measures N random guests of the model (200 without the option) from a seed on (1 without
it), and prints of how many the number is smaller by a greater table, equal, and larger, and the seeds of the latter.
The program is the option, or the built one, or the model."""
import argparse
import collections
import os
import sys
import tempfile

TOOLS = os.path.dirname(os.path.dirname(os.path.abspath(__file__)))
sys.path[:0] = [os.path.join(TOOLS, name) for name in ("explain", "model", "guests", "tables", "")]

from answering import Program
from bound_table import GUESTS, Guest
from guest_folder import GuestFolder
from measure_trials import measure_trial

TABLES = ("1", "2", "3")


def outputs_text(answer):
    """How many outputs there are."""
    if not answer.is_bounded:
        return "-"
    outputs = answer.numbers["outputs"]
    return "2^64" if outputs is None else f"{outputs:,}"


def row(words, guest):
    """The cells of a guest."""
    bits, outputs = [], []
    for table in TABLES:
        words.rules = table
        with tempfile.TemporaryDirectory() as folder:
            measured, answer, _ = Guest(folder, words, guest).bounded()
        bits.append(str(measured))
        outputs.append(outputs_text(answer))
    return [guest[0], *bits, *outputs]


def measured_bits(asked, folder, seed):
    """The bits that are measured of a random guest by each table; None where a run is not measured."""
    files, options = measure_trial(seed)
    for name, data in files.items():
        folder.write(name, data)
    spelled = [word for name, value in options if name not in ("--rules", "--cut") for word in (name, value)]
    words = [folder.path(word) if word in files else word for word in ("program", "public", "secret", *spelled)]
    answers = [asked.answer(["measure", *words, "--rules", table]) for table in TABLES]
    if any(status for status, _ in answers):
        return None
    return [int(text.split("\n")[2].split()[1]) for _, text in answers]


def compare_random(asked, first, count):
    """Prints how the numbers of random guests differ by the tables."""
    found, larger, seed = collections.Counter(), [], first
    with tempfile.TemporaryDirectory() as name:
        folder = GuestFolder(name)
        while count:
            bits = measured_bits(asked, folder, seed)
            if bits:
                count -= 1
                for one, other in ((0, 1), (1, 2), (0, 2)):
                    kind = "smaller" if bits[other] < bits[one] else "equal" if bits[other] == bits[one] else "larger"
                    found[one + 1, other + 1, kind] += 1
                    larger += [f"{seed}: {bits}"] * (kind == "larger")
            seed += 1
    for one, other in ((1, 2), (2, 3), (1, 3)):
        parts = ", ".join(f"{kind} {found[one, other, kind]}" for kind in ("smaller", "equal", "larger"))
        print(f"by table {other} beside table {one}: {parts}")
    print(f"larger, seed and bits: {'; '.join(larger) or 'none'}")


def main():
    """Makes the table."""
    parser = argparse.ArgumentParser(description=__doc__, formatter_class=argparse.RawDescriptionHelpFormatter)
    parser.add_argument("--random", type=int, default=200, metavar="N")
    parser.add_argument("--first", type=int, default=1, metavar="SEED")
    parser.add_argument("--guest", nargs="*", default=[guest[0] for guest in GUESTS], metavar="NAME")
    parser.add_argument("--compiler", default="gcc", metavar="NAME")
    parser.add_argument("--paths", type=int, default=1 << 16, metavar="N")
    parser.add_argument("--flowcheck", metavar="COMMAND")
    words = parser.parse_args()
    words.seed = 1
    if words.guest:
        print("| Guest | Bits, table 1 | 2 | 3 | Outputs, table 1 | 2 | 3 |")
        print("|---|---|---|---|---|---|---|")
    for guest in GUESTS:
        if guest[0] in words.guest:
            print("| " + " | ".join(row(words, guest)) + " |", flush=True)
    compare_random(Program(words.flowcheck), words.first, words.random)


if __name__ == "__main__":
    main()
