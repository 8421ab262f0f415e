#!/usr/bin/env python3
"""instructions.py OLD NEW

Counts by valgrind the instructions that two built programs take for `check` of the guests of run.py and for `measure`
of those of measure.py, with fewer turns. Prints both counts and their ratio. What else the machine does changes nothing
of it. Linux with Python 3 and valgrind."""
import sys
import tempfile

import measure
import run
from timing import counted, parser_of, timed

MEASURED_TURNS = 60_000
CHECKED = [
    ("tight loop", run.tight_loop(100_000), 1),
    ("beside 256 regions", run.beside_regions(100_000), 1),
    ("loop through a region", run.region_loop(50_000, False), 1),
    ("the same, skipped", run.region_loop(50_000, True), 1),
    ("copy of memory", run.copy_loop(1, 32_768), 1),
    ("64 secrets", run.tight_loop(3_000), 64),
]


def counting(counts):
    """As `timed`, but that instructions of `check` and `measure` are counted, and no time."""
    def taken(words, folder):
        if words[1] not in ("check", "measure"):
            return timed(words, folder)
        count, *rest = counted(words, folder)
        counts.append(count)
        return count, *rest

    return taken


def main():
    """Prints the instructions of both programs, and their ratio."""
    words = parser_of(__doc__, "old", "new").parse_args()
    programs = [words.old, words.new]
    counts = []
    run.timed = measure.timed = counting(counts)

    def tell(name):
        old, new = counts
        print(f"{name:34}{old:>16,}{new:>16,}{new / old:>9.3f}", flush=True)
        counts.clear()

    print(f"{'guest':34}{'old':>16}{'new':>16}{'ratio':>9}")
    with tempfile.TemporaryDirectory() as folder:
        for name, guest, secrets in CHECKED:
            for program in programs:
                run.check(program, folder, guest, secrets)
            tell(f"check: {name}")
        for name, guest in measure.rows(MEASURED_TURNS):
            if guest.turns > 20 * MEASURED_TURNS:
                continue
            for program in programs:
                measure.measure_alone(program, folder, guest)
            tell(f"measure: {name}")
    return 0


if __name__ == "__main__":
    sys.exit(main())
