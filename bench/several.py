#!/usr/bin/env python3
"""several.py EXECUTABLE [--turns N] [--instructions]

Times `measure-all` of 64 runs of a guest, each on another secret byte, beside 64 calls of `measure` of one run each: a
tight loop, a loop through a region, a copy of memory byte by byte, a loop that carries a secret byte through 3,000
points, a loop in which a point's mask changes at every visit, and one with more rounds for a greater secret, each of
about N turns (500,000 without the option); a run whose graph has about 20,000 points and 300,000 links; and a guest
that exits at once.

The seconds are those in which a processor worked for the command. Those that it takes to read the files are taken off
as often: of `measure-all` with a last secret of two bytes, which is refused before any run is made. Of 64 runs together
it is the median of three calls. Prints for each guest the turns of a run, the number of bits, the seconds of the 64
calls and of the one, how many times as long the one took, and the most memory of a call of either. `check` must accept
each secret with the one cut and number.

With --instructions it counts by valgrind the millions of instructions, of fewer turns (20,000 without the option). What
else the machine does changes nothing of it; it has no part of the system's work. Of the 64 calls it makes eight, and
counts each eight times. The run of so many links is left out. Linux with Python 3, and valgrind for the count."""
import pathlib
import statistics
import sys
import tempfile

from measure import READ_A_BYTE, carried, changing, largest
from run import EXIT, Guest, copy_loop, prepare, region_loop, tight_loop
from timing import counted_millions, parser_of, worked

SECRETS = 64
TIMES = 3
LINKS = "300,000 links"


def as_many_rounds(rounds):
    """So many rounds, and 16 more for each one that the secret byte counts; it is known to the loop by its decision."""
    lines = READ_A_BYTE + ["slli t1, t1, 4", f"li t0, {rounds}", "add t0, t0, t1", "loop: addi t0, t0, -1"]
    lines += ["addi t2, t2, 1", "bne t0, x0, loop"] + EXIT
    return Guest(lines, 3 * rounds + 14)


def reading(guest):
    """The guest, which reads the secret byte first and does nothing with it."""
    guest.source = "\n".join(READ_A_BYTE) + "\n" + guest.source
    guest.turns += len(READ_A_BYTE)
    return guest


def rows(turns):
    """The guests by name."""
    return [
        ("tight loop", reading(tight_loop(turns // 2))),
        ("loop through a region", region_loop(turns // 6, False)),
        ("copy of memory", reading(copy_loop(max(1, turns // 81_935), 16_384))),
        ("3,000 points", carried(max(1, turns // 3_000), 1_500)),
        ("changing masks", changing(turns // 5)),
        ("rounds by the secret", as_many_rounds(turns // 3)),
        (LINKS, largest(500, 600, 9_000)),
        ("exit at once", Guest(EXIT, 3)),
    ]


class Calls:
    """The calls for a guest, in a folder."""

    def __init__(self, executable, folder, guest, is_counting):
        self.executable, self.folder, self.is_counting = executable, folder, is_counting
        paths, self.options = prepare(executable, folder, guest)
        self.cut, self.head = paths["cut"], [paths["program"], paths["public"]]
        self.secrets = [f"{folder}/secret{number}" for number in range(SECRETS)]
        for number, name in enumerate(self.secrets):
            pathlib.Path(name).write_bytes(bytes([4 * number + 3]))
        self.other = f"{folder}/other"
        pathlib.Path(self.other).write_bytes(b"ab")

    def call(self, command, secrets, expected=0):
        """Seconds, memory and text of a call."""
        words = [self.executable, command, *self.head, *secrets, *self.options]
        seconds, memory, status, text = (counted_millions if self.is_counting else worked)(words, self.folder)
        if status != expected:
            raise SystemExit(f"{command}: status {status}:\n{text.decode()[:300]}")
        return seconds, memory, text

    def reading(self, secrets):
        """The seconds of a call that reads these secrets, and is refused then."""
        return self.call("measure-all", [*secrets, self.other], 4)[0]

    def together(self):
        """The seconds of the call of all runs, those of reading taken off, the most memory, and the text."""
        done, read = [], []
        for _ in range(1 if self.is_counting else TIMES):
            done.append(self.call("measure-all", self.secrets))
            read.append(self.reading(self.secrets[1:]))
        seconds = statistics.median(one[0] for one in done) - statistics.median(read)
        return seconds, max(one[1] for one in done), done[0][2]

    def single(self):
        """The seconds of 64 calls of one run each, likewise, and the most memory of one."""
        seconds, most, each = 0, 0, 8 if self.is_counting else 1
        for secret in self.secrets[::each]:
            taken, memory, _ = self.call("measure", [secret])
            seconds += each * (taken - self.reading([secret]))
            most = max(most, memory)
        return seconds, most

    def check(self, cut):
        """The number of bits of a cut, with which each secret must be accepted."""
        pathlib.Path(self.cut).write_bytes(cut)
        bits = cut.split(b"\nbits ")[1].split(b"\n")[0].decode()
        words = [self.executable, "check", *self.head, self.cut, bits, *self.secrets, *self.options]
        _, _, status, text = worked(words, self.folder)
        if status != 0:
            raise SystemExit(f"check: status {status}:\n{text.decode()[:300]}")
        return bits


def main():
    """Prints what several secrets cost together."""
    parser = parser_of(__doc__)
    parser.add_argument("--turns", type=int, metavar="N")
    parser.add_argument("--instructions", action="store_true")
    words = parser.parse_args()
    is_counting, unit = words.instructions, "M" if words.instructions else "s"
    print(f"{'guest':24}{'turns':>10}{'bits':>6}{'64 calls':>11}{'one call':>11}{'times':>7}{'memory of a call':>20}")
    with tempfile.TemporaryDirectory() as folder:
        for name, guest in rows(words.turns or (20_000 if is_counting else 500_000)):
            if is_counting and name == LINKS:
                continue
            calls = Calls(words.executable, folder, guest, is_counting)
            together, most, cut = calls.together()
            bits = calls.check(cut)
            single, other = calls.single()
            times = f"{together / single:.2f}" if single > 0.1 else "-"
            memory = "-" if is_counting else f"{other / 1e6:.1f}, {most / 1e6:.1f} MB"
            numbers = f"{guest.turns:>10}{bits:>6}{single:>9.2f} {unit}{together:>9.2f} {unit}"
            print(f"{name:24}{numbers}{times:>7}{memory:>20}", flush=True)
    return 0


if __name__ == "__main__":
    sys.exit(main())
