#!/usr/bin/env python3
"""Makes the table `tracked` of crates/label_rows, and what the program must print of it.

With the word `table` it prints the table; with the word `rows` it reads the table, and prints what must be printed.
`put_rows.py` puts both where they belong.

The guests are those of event_guests.py; GNU as makes their words. What must be printed is found by the model of
`tools/model`, which was written from the rules in words: it makes the real run turn by turn and follows it with labels
by table 1, and here each passing and each link is told as it comes, in the order in which events stand. The table needs
riscv64-unknown-elf-as and -objcopy."""
import argparse
import pathlib
import struct
import subprocess
import sys
import tempfile

sys.path.insert(0, str(pathlib.Path(__file__).resolve().parent.parent / "model"))

from cuts import read_regions
from event_guests import GUESTS
from guest import Image, RealGuest, shown
from labels import Labels
from measures import MeasuredRun, Refused
from passings import CLEAN, IMPLICIT, OUT, SECRET
from program_files import plain_file

TOOLS = "riscv64-unknown-elf-"


def words_of(source):
    """The words that GNU as makes of a source."""
    with tempfile.TemporaryDirectory() as folder:
        text, made, body = (pathlib.Path(folder) / name for name in ("text.s", "made.o", "body"))
        text.write_text(source)
        subprocess.run([TOOLS + "as", "-march=rv32im", "-mabi=ilp32", "-mno-relax", "-o", made, text], check=True)
        subprocess.run([TOOLS + "objcopy", "-O", "binary", "-j", ".text", made, body], check=True)
        data = body.read_bytes()
    return struct.unpack(f"<{len(data) // 4}I", data)


def print_table():
    """The lines of each guest."""
    for guest in GUESTS:
        print("guest", guest.name)
        words = words_of(guest.source)
        for first in range(0, len(words), 8):
            print("code", *(f"{word:08x}" for word in words[first : first + 8]))
        for name, data in (("public", guest.public), ("secret", guest.secret)):
            if data:
                print(name, *(f"{byte:02x}" for byte in data))
        if guest.regions:
            print("regions", guest.regions)
        print("turns", guest.turns)


def told(point):
    """A point as rows show it."""
    region, address, slot = point
    return f"{region} {shown(address)} {slot}"


class ToldPassings:
    """The events of a turn, as lines: each passing, then its links in order, then where its bits flow from or to."""

    def __init__(self):
        self.lines = []

    def add(self, point, mask, sources=(), kind=None):
        """Tells a passing as `Passings` adds it."""
        self.lines.append(f"pass {told(point)} {shown(mask)}")
        if not mask:
            return CLEAN
        self.lines += [f"link {told(source)} to {told(point)}" for secret, source in sources if secret]
        if kind == SECRET:
            self.lines.append(f"secret to {told(point)}")
        elif kind == IMPLICIT:
            self.lines.append(f"implicit {told(point)} to {point[0]}")
        elif kind == OUT:
            self.lines.append(f"out {point[0]} to {told(point)}")
        return mask, point


class ToldRun(MeasuredRun):
    """A measured run of which each turn is told."""

    def __init__(self, guest):
        self.guest, self.passings = guest, ToldPassings()
        self.labels, self.status = Labels(1, self.passings), None

    def tell(self, turns):
        """Prints the rows of so many turns, or of fewer where the run ends."""
        for _ in range(turns):
            try:
                self.make_turn()
            except Refused as refused:
                print("refused", refused)
                return
            print("\n".join([*self.passings.lines, "ran" if self.status is None else f"exited {self.status}"]))
            self.passings.lines.clear()
            if self.status is not None:
                return


def print_rows(lines):
    """The rows of the guests of a table."""
    for line in lines:
        word, rest = line.rstrip("\n").split(" ", 1)
        if word == "guest":
            print(word, rest)
            code, inputs, regions = b"", {"public": b"", "secret": b""}, []
        elif word == "code":
            code += b"".join(struct.pack("<I", int(number, 16)) for number in rest.split(" "))
        elif word == "regions":
            regions = read_regions(rest)
        elif word == "turns":
            image = Image(plain_file(code))
            ToldRun(RealGuest(image, inputs["public"], inputs["secret"], regions)).tell(int(rest))
        else:
            inputs[word] = bytes(int(number, 16) for number in rest.split(" "))


def main():
    """Prints the table, or its rows."""
    parser = argparse.ArgumentParser(description=__doc__, formatter_class=argparse.RawDescriptionHelpFormatter)
    parser.add_argument("word", choices=["table", "rows"])
    if parser.parse_args().word == "table":
        print_table()
    else:
        print_rows(sys.stdin)


if __name__ == "__main__":
    main()
