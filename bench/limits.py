#!/usr/bin/env python3
"""limits.py EXECUTABLE [TURNS]

Times the built program on files at their limits: a program of 16 MiB, a public input of 1 MiB, a secret of 65,536
bytes, a cut and a certificate of 64 MiB, 256 regions of 64 ranges in a file of 65,536 bytes or as many as have room, a
source of 1 MiB, and 64 secrets of TURNS turns each (20,000,000 without the word). Prints the seconds and the most
memory of each command, and says of each whether it took more than 5 s or 1.5 GB. Each answer must be the one that is
expected. Linux with Python 3."""
import os
import pathlib
import sys
import tempfile

from certificates import certificate
from cuts import many_points
from run import EXIT, EXIT_WORDS
from timing import parser_of, timed

sys.path.append(str(pathlib.Path(__file__).resolve().parent.parent / "tools" / "model"))
from program_files import packed, plain_file

SECONDS, MEMORY = 5, 1_500_000_000
NO_CUT = "flowcheck-cut 1\nsecret {}\nbits 0\nend\n"


def program_of(words, size):
    """A program file of so many bytes, whose one segment begins with these words."""
    code = packed(words)
    return plain_file(code + bytes(size - len(plain_file(code))))


def region_file():
    """256 regions, each with as many ranges as the limit of the file lets all of them have, at most 64."""
    def text(ranges):
        listed = ",".join(['{"offset":0,"length":1}'] * ranges)
        regions = (f'{{"id":{number},"enter":"{0x10100 + 8 * number:#x}","leave":"{0x10104 + 8 * number:#x}",'
                   f'"ranges":[{listed}]}}' for number in range(1, 257))
        return '{"regions":[' + ",".join(regions) + "]}"

    return next(text(ranges) for ranges in range(64, -1, -1) if len(text(ranges)) <= 65_536).encode()


def read_all(count):
    """Reads a secret of so many bytes, and exits."""
    return ["li a0, 3", "li a1, 0x80000", f"li a2, {count}", "li a7, 63", "ecall", *EXIT]


def loop(turns):
    """Makes about so many turns."""
    return [f"li t0, {(turns - 8) // 2}", "loop: addi t0, t0, -1", "bne t0, x0, loop", *EXIT]


class Folder:
    """A folder with files, in which commands are timed."""

    def __init__(self, executable, place):
        self.executable, self.place, self.slow = executable, pathlib.Path(place), 0
        for name, data in (("public", b""), ("secret", b"a"), ("cut", NO_CUT.format(1).encode())):
            self.write(name, data)
        self.assemble("small", EXIT)

    def write(self, name, data):
        (self.place / name).write_bytes(data)
        return str(self.place / name)

    def assemble(self, name, lines):
        source = self.write("source", ("\n".join(lines) + "\n").encode())
        timed([self.executable, "asm", source], str(self.place))
        self.write(name, (self.place / "put").read_bytes())

    def time(self, what, command, *words, may_be_slow=False, status=0):
        """Times a command on files of these names, and words that name none."""
        words = [str(self.place / word) if (self.place / word).exists() else word for word in words]
        seconds, memory, found, put = timed([self.executable, command, *words], str(self.place))
        if found != status:
            sys.exit(f"{what}: status {found}: {put[:200]}")
        is_slow = (seconds > SECONDS and not may_be_slow) or memory > MEMORY
        self.slow += is_slow
        print(f"{what:46}{seconds:9.2f} s{memory / 1e6:9.0f} MB" + ("  above the limit" if is_slow else ""), flush=True)


def main():
    """Prints the seconds and the memory of runs at the limits."""
    parser = parser_of(__doc__)
    parser.add_argument("turns", type=int, nargs="?", default=20_000_000, metavar="TURNS")
    words = parser.parse_args()
    executable, turns = words.executable, words.turns
    with tempfile.TemporaryDirectory() as place:
        folder = Folder(executable, place)
        folder.write("program", program_of(EXIT_WORDS, 1 << 24))
        folder.time("check, a program of 16 MiB", "check", "program", "public", "cut", "0", "secret")
        folder.time("measure, a program of 16 MiB", "measure", "program", "public", "secret")
        folder.time("list, a program of 16 MiB", "list", "program")
        folder.write("long", bytes(1 << 20))
        folder.time("check, a public input of 1 MiB", "check", "small", "long", "cut", "0", "secret")
        folder.write("wide", os.urandom(65_536))
        folder.assemble("reads", read_all(65_536))
        folder.write("none", NO_CUT.format(65_536).encode())
        folder.time("check, a secret of 65,536 bytes", "check", "reads", "public", "none", "0", "wide")
        folder.time("measure, a secret of 65,536 bytes", "measure", "reads", "public", "wide")
        folder.write("regions", region_file())
        folder.time("check, 256 regions", "check", "small", "public", "cut", "0", "secret", "--regions", "regions")
        folder.time("measure, 256 regions", "measure", "small", "public", "secret", "--regions", "regions")
        for version in (1, 2):
            folder.write("points", many_points(version).encode())
            folder.time(f"check, a cut of 64 MiB, version {version}", "check", "small", "public", "points", "0",
                        "secret")
            folder.time(f"migrate, a cut of 64 MiB, version {version}", "migrate", "points")
        folder.write("graph", certificate().encode())
        folder.time("verify, the largest certificate", "verify", "graph")
        folder.write("lines", b"addi t0, t0, 1\n" * ((1 << 20) // 15))
        folder.time("asm, a source of 1 MiB", "asm", "lines")
        folder.assemble("turns", loop(turns))
        folder.time(f"check, 64 secrets of {turns} turns", "check", "turns", "public", "cut", "0",
                    *["secret"] * 64, "--turns", "20000000", may_be_slow=True)
        folder.time(f"measure, {turns} turns", "measure", "turns", "public", "secret", "--turns", "20000000",
                    may_be_slow=True)
    return int(folder.slow > 0)


if __name__ == "__main__":
    sys.exit(main())
