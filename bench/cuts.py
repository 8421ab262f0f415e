#!/usr/bin/env python3
"""cuts.py EXECUTABLE

Times `check` of the built program with a cut of 64 MiB, in version 1 and in version 2, of points with short lists, and
of one point with a long list. The guest exits at once, so that the time is that of reading the cut. Prints the seconds
of the whole command and the most memory that it had. Every check must accept its secret. Linux with Python 3."""
import os
import pathlib
import sys
import tempfile

from run import EXIT, Guest, prepare
from timing import parser_of, timed

SIZE = 64 << 20
HEAD = "flowcheck-cut {}\nsecret 1\nbits 0\n"
END = "end\n"


def rest(version):
    """The masks behind `rest` in a cut of a version."""
    return "0x00000001" if version == 1 else "1*0x00000001 2*0x00000003"


def filled(version, lines):
    """The text of a cut with so many of these lines as have room."""
    text, size = [HEAD.format(version)], len(HEAD) + len(END)
    for line in lines:
        size += len(line)
        if size > SIZE:
            break
        text.append(line)
    return "".join(text) + END


def many_points(version):
    """A cut with as many points as a file may have."""
    lines = (f"point 1 {4 * n:#010x} rs 1*0x00000001 rest {rest(version)}\n" for n in range(1 << 30))
    return filled(version, lines)


def long_list(version):
    """One point, with as many runs as have room."""
    room = SIZE - 200
    runs = "1*0x00000001 1*0x00000002 " * (room // 26)
    return filled(version, [f"point 1 0x00010000 rs {runs}rest {rest(version)}\n"])


def main():
    """Prints the seconds and the memory for each cut."""
    executable = parser_of(__doc__).parse_args().executable
    with tempfile.TemporaryDirectory() as folder:
        files, _ = prepare(executable, folder, Guest(EXIT, 3))
        for name, make in (("many points", many_points), ("a long list", long_list)):
            for version in (1, 2):
                pathlib.Path(files["cut"]).write_text(make(version))
                words = [executable, "check", files["program"], files["public"], files["cut"], "0", files["secret"]]
                seconds, memory, status, put = timed(words, folder)
                if status != 0:
                    sys.exit(f"{name}, version {version}: status {status}: {put}")
                size = os.path.getsize(files["cut"])
                print(f"{name}, version {version}: {size} bytes, {seconds:.2f} s, {memory / 1e6:.0f} MB")


if __name__ == "__main__":
    main()
