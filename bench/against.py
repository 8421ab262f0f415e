#!/usr/bin/env python3
"""against.py OLD NEW [TIMES]

Times two built programs, one after the other and so on, TIMES times each (5 without the word): `check` over the guests
of run.py, then `measure` over those of measure.py. Prints for each guest the median of the seconds of either, and how
much of the old time the new one takes; for `measure` also the most memory of either. Linux with Python 3."""
import statistics
import sys
import tempfile
from functools import partial

import measure
import run
from timing import in_turns, parser_of

TURNS = 1_900_000


def compare_checks(programs, times, folder):
    """Prints the seconds of `check` of both programs, and their ratio."""
    print(f"{'check':24}{'turns':>12}{'old':>10}{'new':>10}{'new / old':>11}")
    for name, guest, secrets in run.rows():
        tries = in_turns([partial(run.check, program, folder, guest, secrets) for program in programs], times)
        old, new = (statistics.median(one[0] for one in found) for found in tries)
        print(f"{name:24}{guest.turns * secrets:>12}{old:>8.3f} s{new:>8.3f} s{new / old:>11.2f}", flush=True)


def compare_measures(programs, times, folder):
    """Prints the seconds of `measure` of both programs, their ratio, and the memory of both."""
    print(f"{'measure':24}{'turns':>12}{'old':>10}{'new':>10}{'new / old':>11}{'memory of both':>22}")
    for name, guest in measure.rows(TURNS):
        tries = in_turns([partial(measure.measure_alone, program, folder, guest) for program in programs], times)
        if len({cut for found in tries for _, _, cut in found}) != 1:
            raise SystemExit(f"{name}: the programs print different cuts")
        old, new = (statistics.median(one[0] for one in found) for found in tries)
        both = ", ".join(f"{max(one[1] for one in found) / 1e6:.1f}" for found in tries) + " MB"
        print(f"{name:24}{guest.turns:>12}{old:>8.3f} s{new:>8.3f} s{new / old:>11.2f}{both:>22}", flush=True)


def main():
    """Compares both programs."""
    parser = parser_of(__doc__, "old", "new")
    parser.add_argument("times", type=int, nargs="?", default=5, metavar="TIMES")
    words = parser.parse_args()
    programs, times = [words.old, words.new], words.times
    with tempfile.TemporaryDirectory() as folder:
        compare_checks(programs, times, folder)
        compare_measures(programs, times, folder)
    return 0


if __name__ == "__main__":
    sys.exit(main())
