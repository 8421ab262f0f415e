#!/usr/bin/env python3
"""shadow_memory.py EXECUTABLE

Measures the memory of a shadow by the pages that are at work in it: runs the table `shadow` of
crates/label_rows on lines that label
nothing, one byte in so many pages, many points in one page, and all of guest memory with one point, and then clear it.
Prints for each the memory of the program's own (heap, stack and data; nothing of it is shared with other programs)
once it has answered the last line, what that is for each page at work above a shadow of which nothing is labelled, and
the seconds. Linux with Python 3."""
import subprocess
import sys
import time

from timing import parser_of

BASE = 0x10000
PAGE = 0x1000
MEMORY = 0x1000000


def timed(executable, lines):
    """The seconds of a run, and the memory in bytes that is its own after the last line."""
    begin = time.perf_counter()
    with subprocess.Popen([executable], stdin=subprocess.PIPE, stdout=subprocess.PIPE, bufsize=0) as program:
        for line in ["table shadow", *lines]:
            program.stdin.write(line.encode() + b"\n")
            answer = program.stdout.readline()
            if answer not in (b"table shadow\n", b"done\n", b"clean\n"):
                raise SystemExit(f"{line}: {answer.decode()}")
        seconds = time.perf_counter() - begin
        with open(f"/proc/{program.pid}/status") as status:
            [own] = [line.split()[1] for line in status if line.startswith("RssAnon:")]
        program.stdin.close()
    return seconds, 1024 * int(own)


def bytes_in_pages(count):
    """Lines that label the first byte of each of so many pages."""
    return [f"range {BASE + PAGE * page:x} 1 ff 10010" for page in range(count)]


def points_in_a_page(count):
    """Lines that label so many bytes of a page, each by a point of its own."""
    return [f"range {BASE + byte:x} 1 ff {BASE + 4 * byte:x}" for byte in range(count)]


def main():
    """Prints the memory for each way to label bytes."""
    executable = parser_of(__doc__).parse_args().executable
    rows = [
        ("nothing labelled", 0, [f"clean {BASE:x} {MEMORY:x}"]),
        ("a byte in 1 page", 1, bytes_in_pages(1)),
        ("a byte in 16 pages", 16, bytes_in_pages(16)),
        ("a byte in 256 pages", 256, bytes_in_pages(256)),
        ("a byte in each page", 4096, bytes_in_pages(4096)),
        ("256 points in a page", 1, points_in_a_page(256)),
        ("4,096 points in a page", 1, points_in_a_page(4096)),
        ("all memory, one point", 4096, [f"range {BASE:x} {MEMORY:x} ff 10010"]),
        ("the same, cleared", 4096, [f"range {BASE:x} {MEMORY:x} {mask} 10010" for mask in ("ff", "0")]),
    ]
    print(f"{'labels':26}{'pages':>8}{'memory':>12}{'a page':>12}{'seconds':>10}")
    _, least = timed(executable, rows[0][2])
    for name, pages, lines in rows:
        seconds, memory = timed(executable, lines)
        page = f"{(memory - least) / pages / 1e3:.1f} kB" if pages else ""
        print(f"{name:26}{pages:>8}{memory / 1e6:>9.2f} MB{page:>12}{seconds:>10.2f}")
    return 0


if __name__ == "__main__":
    sys.exit(main())
