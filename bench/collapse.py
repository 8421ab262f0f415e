#!/usr/bin/env python3
"""collapse.py EXECUTABLE [EVENTS]

Times the built program of crates/graph_rows on so many events, 100,000,000 where the number isn't named, over points
and links that are known already. Prints for each load the nanoseconds for an event, of the processor's time that the
program used less that of a run without the events, the seconds of that run, and the most memory. Linux with Python
3."""
import tempfile

from timing import parser_of, worked

LOADS = [(100, 300), (60_000, 1_000_000)]


def main():
    """Prints the seconds and the memory for each load."""
    parser = parser_of(__doc__)
    parser.add_argument("events", type=int, nargs="?", default=100_000_000, metavar="EVENTS")
    given = parser.parse_args()
    events = given.events
    for points, links in LOADS:
        words = [given.executable, str(points), str(links)]
        seconds, memory = [], 0
        for count in (0, events):
            with tempfile.TemporaryDirectory() as folder:
                spent, most, status, text = worked(words + [str(count)], folder)
            if status != 0 or text.decode(errors="replace") != f"points {points} links {links}\n":
                raise SystemExit(f"{words} {count}: status {status}, {text}")
            seconds.append(spent)
            memory = max(memory, most)
        each = (seconds[1] - seconds[0]) * 1e9 / events
        print(f"points {points} links {links}: {each:.1f} ns an event, {seconds[0]:.2f} s without, "
              f"{memory / 1e6:.0f} MB")


if __name__ == "__main__":
    main()
