#!/usr/bin/env python3
"""Measures how long a certificate at the limits of a graph is read and verified.

    python3 bench/certificates.py PROGRAM

PROGRAM is the built program file_rows. The graph has 65,536 points and 1,048,576 links. Two files are judged: the
right one, which is read and verified whole, and one whose last line is left out, which is read alone; the difference is
the time of verifying.
"""
import subprocess
import tempfile
import time
from pathlib import Path

from timing import parser_of


def certificate():
    """The text of a certificate with as many points and links as there may be."""
    count, wanted = 65_536, 1_048_576
    lines = ["flowcheck-graph 1", f"value {count}"]
    lines += [f"point 0 0x{65536 + 4 * i:08x} rs capacity 1 flow 1 side m" for i in range(count)]
    links = [f"link source p{i} flow 1" for i in range(count)]
    each = (wanted - 2 * count) // count
    for i in range(count):
        targets = sorted((i + 1 + k) % count for k in range(each))
        links += [f"link p{i} p{target} flow 0" for target in targets] + [f"link p{i} sink flow 1"]
    return "\n".join(lines + links + ["end", ""])


def main():
    """Prints the seconds and the memory of `verify`."""
    program = parser_of(__doc__, "program").parse_args().program
    text = certificate()
    with tempfile.TemporaryDirectory() as folder:
        (Path(folder) / "whole").write_text(text)
        (Path(folder) / "short").write_text(text[: -len("end\n")])
        seconds = {}
        for name in ("short", "whole"):
            start = time.monotonic()
            table = f"table certificate\n{name}\n"
            out = subprocess.run([program], cwd=folder, input=table, capture_output=True, text=True, check=True)
            seconds[name] = time.monotonic() - start
            print(f"{out.stdout.splitlines()[1]}: {seconds[name]:.2f} s")
        print(f"{len(text)} bytes, verified in {seconds['whole'] - seconds['short']:.2f} s")


if __name__ == "__main__":
    main()
