#!/usr/bin/env python3
"""start.py EXECUTABLE [OTHER] [--times N]

Times `check`, `bound` and `measure` of the built program on the guest of examples/bit, which makes nine turns: mostly
what a call takes before its first turn and after its last one. Prints for each the least milliseconds by the clock and
of a processor, and the pages of memory that the system made for it, of so many calls (50 without --times); beside
another built program if one is given, each call of the two in turn. Linux with Python 3."""
import os
import pathlib
import time

from timing import parser_of, program

FOLDER = pathlib.Path(__file__).resolve().parent.parent / "examples" / "bit"
CALLS = [
    ["check", "program", "public", "cut", "1", "secret3"],
    ["bound", "program", "public", "cut", "1"],
    ["measure", "program", "public", "secret3"],
]


def spent(words, nowhere):
    """The milliseconds of a call by the clock and of a processor, and the pages."""
    begin = time.perf_counter()
    actions = [(os.POSIX_SPAWN_DUP2, nowhere, 1), (os.POSIX_SPAWN_DUP2, nowhere, 2)]
    child = os.posix_spawn(words[0], words, os.environ, file_actions=actions)
    _, status, usage = os.wait4(child, 0)
    clock = time.perf_counter() - begin
    if status:
        raise SystemExit(f"{words}: status {status}")
    return 1e3 * clock, 1e3 * (usage.ru_utime + usage.ru_stime), usage.ru_minflt


def main():
    parser = parser_of(__doc__)
    parser.add_argument("other", type=program, nargs="?", metavar="OTHER")
    parser.add_argument("--times", type=int, default=50, metavar="N")
    words = parser.parse_args()
    programs = [each for each in (words.executable, words.other) if each]
    nowhere = os.open(os.devnull, os.O_WRONLY)
    os.chdir(FOLDER)
    for call in CALLS:
        seen = [[] for _ in programs]
        for _ in range(words.times):
            for each, list_of in zip(programs, seen):
                list_of.append(spent([each] + call, nowhere))
        rows = [tuple(min(column) for column in zip(*list_of)) for list_of in seen]
        print(f"{call[0]:10}" + "   beside".join(f"{clock:8.2f} ms, {worked:.2f} of a processor, {pages} pages"
                                                for clock, worked, pages in rows), flush=True)
    return 0


if __name__ == "__main__":
    raise SystemExit(main())
