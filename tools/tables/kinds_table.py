#!/usr/bin/env python3
"""Bounds guests of usual kinds by `make NAME.bound` alone, and says beside each how many outputs there are.

Call: kinds_table.py [--enclosed] [--guest NAME...] [--compiler NAME] [--seconds N] [--flowcheck COMMAND]

The guests are fifteen of guests/kinds and of examples/truth, or with --enclosed those of examples/enclosed, which want
a region; they are made by gcc or by what --compiler names. The true number of outputs was counted by hand; the lists
below say how. Prints a table: the bytes of the secret, the true number, the bits that
`measure` has of one secret, the bound of the outputs and of their bits, how it was come to, how many outputs the random
secrets gave, and the seconds of `make` by the clock. The last line counts the guests that were answered, those that
were exact, and those whose bound is below the truth, for which the status is 1. The program is the option, or
FLOWCHECK, or the built one, or the model."""
import argparse
import glob
import os
import re
import struct
import subprocess
import sys
import tempfile
import time

TOOLS = os.path.dirname(os.path.dirname(os.path.abspath(__file__)))
sys.path[:0] = [os.path.join(TOOLS, name) for name in ("explain", "model", "guests")]

from guest_folder import MAKEFILE, GuestFolder, content

RECORDS = bytes([25, 1, 35, 2, 70, 2, 40, 2, 33, 1, 59, 2, 20, 2, 31, 3, 60, 1, 90, 2])
# The name, the folder, the public input, the secret, and the true number of outputs with how it was counted.
GUESTS = [
    ("door", "tools/guests/kinds", b"secret", b"sesame", 2),  # open and shut
    ("token", "tools/guests/kinds", bytes(range(16)), bytes(range(1, 17)), 2),  # 0 and 1
    ("keypad", "examples/truth", b"Margaret000011111234", b"1234", 4),  # right at one of three tries, or not
    ("own_hash", "tools/guests/kinds", b"\x12\x34\x56\x78", b"correcthor", 2),  # yes and no
    ("derived", "tools/guests/kinds", b"salt", b"passphra", 256),  # at most any byte; 250 were seen
    ("card", "tools/guests/kinds", b"", b"123456781234", 3),  # right, wrong, no number
    ("query", "examples/truth", bytes([30, 60, 2]), RECORDS, 5),  # none to three, many
    ("ballots", "examples/truth", b"", b"ABCABCABAAB", 4),  # three candidates, a tie
    ("middle", "tools/guests/kinds", b"", bytes([5, 9, 200, 13, 77, 42, 99, 3, 8]), 256),  # any byte, if all are it
    # The first three may win at sixteen prices, the last one at fifteen: with a price of 15 the one before it wins.
    ("sale", "tools/guests/kinds", b"", bytes([3, 9, 7, 12]), 63),
    # Twelve people in four groups: 15 * 14 * 13 / 6.
    ("bars", "tools/guests/kinds", b"", bytes([3, 15, 22, 37, 45, 60, 8, 19, 28, 33, 50, 71]), 455),
    # Five shots, each of which hits or not.
    ("ships", "tools/guests/kinds", b"a1b2c3d4e5", bytes(1 << one for one in range(8)), 32),
    ("letter", "tools/guests/kinds", b"Dear @, we are glad. @!", b"Margaret\0\0", 11),  # a name of none to ten letters
    ("sum", "tools/guests/kinds", b"", bytes([10, 20, 30, 40]), 1021),  # 0 to 1020
    ("price", "examples/truth", b"", b"k", 32),  # five bits, each another price
]
ENCLOSED = [(name, "examples/enclosed", *rest) for name, *rest in (
    ("aes", bytes(range(32)), bytes(range(16)), 2),  # genuine or not
    ("age", b"20261202", b"19800229", 3),  # no date, younger, not younger
    ("base64", b"", b"QUJDREVGR0hJSktM", 4),  # 10, 11 or 12 bytes, or none
    ("crypt", bytes(range(16)), b"correcthorse", 2),  # right or not
    ("decades", b"", bytes(range(10, 90, 5)), 9),  # none, few or more in each of two decades
    ("distance", b"kitten", b"sittin", 4),  # 0, 1, 2, or more
    ("fence", struct.pack("<12h", 0, 0, 90, 10, 120, 70, 60, 40, 20, 90, -30, 50), struct.pack("<2h", 30, 30), 2),
    ("filter", b"MargaretJonathanAlbertinNicholas", b"Victoria", 2),  # may be there or not
    ("heap", b"", bytes([1, 5, 5, 2, 9, 7, 7, 3]), 2),  # with equal neighbours or without
    ("hmac", bytes(range(48)), bytes(range(16)), 2),  # genuine or not
    ("json", b"", b'{"a": true}     ', 3),  # none, no and yes
    ("matches", b"a.*bc*d.", b"axxbccdz", 2),  # it matches or not
    ("one_time", bytes(8) + b"755224", bytes(range(16)), 2),  # right or not
    ("price", b"", bytes(range(3, 51, 3)), 256),  # any byte, if all are it
    ("redacted", b"", b"room 12 at half past", 2),  # with a digit or without one
    ("salary", b"", struct.pack("<I", 45000), 5),  # five ranges
    ("score", b"", b"correct1Ho", 3),  # weak, fair, strong
    ("shorter", b"", b"aaabbbbbbbcddddd", 16),  # one to sixteen runs
    ("siphash", bytes(range(16)), bytes(range(16)), 2),  # genuine or not
    ("sorted", b"", bytes(range(3, 51, 3)), 256),  # any byte, if all are it
    ("sums", b"", b"ann,12\nbob,300\ncarol,77\n", 257),  # any byte, or a line that is none
    ("tree", b"", bytes([50, 30, 20, 3]), 3),  # no, maybe, yes
    ("votes", b"", b"ABCABCABAABBDDACBACBADBC", 4),  # four candidates
    # Three marks at five places, but none with one letter elsewhere and all others there.
    ("words", b"crane", b"caper", 238),
)]


class Kind(GuestFolder):
    """A guest in a folder of its own, and what `make` says of its bound."""

    def __init__(self, folder, guest, words):
        super().__init__(folder)
        self.name, place, public, secret, self.truth = guest
        self.length = len(secret)
        self.write(f"{self.name}.public", public)
        self.write(f"{self.name}.secret", secret)
        for header in sorted(glob.glob(os.path.join(TOOLS, "..", place, "*.h"))):
            self.write(os.path.basename(header), content(os.path.relpath(header, os.path.dirname(TOOLS))))
        self.built(words.compiler, f"{place}/{self.name}.c")
        begin = time.monotonic()
        command = ["make", "-s", "-f", MAKEFILE, f"COMPILER={words.compiler}", f"SECONDS={words.seconds}"]
        command += [f"FLOWCHECK={words.flowcheck}"] if words.flowcheck else []
        done = subprocess.run([*command, f"{self.name}.bound"], cwd=folder, capture_output=True, text=True, check=False)
        self.seconds, self.text = time.monotonic() - begin, " ".join(done.stdout.split())

    def found(self, pattern):
        """The number that the text has in a place, or None."""
        match = re.search(pattern, self.text)
        return int(match[1].replace(",", "")) if match else None

    def outputs(self):
        """How many outputs there are at most, or None where nothing is known."""
        power = self.found(r"the output is one of at most 2\^(\d+)")
        if power is not None:
            return 1 << power
        return 1 if "the output is the one below" in self.text else self.found(r"the output is one of ([\d,]+)")

    def way(self):
        """Of which secrets it speaks, and how many of the random ones break no region."""
        covered = re.search(r"those of (\d+ of \d+) random secrets", self.text)
        held = "of all secrets, regions hold" if " --hold" in self.text else "of all secrets"
        return f"regions, {covered[1]}" if covered else held

    def row(self):
        """The cells of the table."""
        outputs, measured = self.outputs(), self.found(r"measured of the secrets: ([\d,]+) bit")
        seen = self.found(r"random secrets? gave ([\d,]+) different")
        if outputs is None:
            return [self.name, self.length, self.truth, "-", "-", "-", "not answered", seen, f"{self.seconds:.1f}"]
        cells = [self.name, self.length, f"{self.truth:,}", measured, f"{outputs:,}", (outputs - 1).bit_length()]
        return [*cells, self.way(), seen, f"{self.seconds:.1f}"]


def main():
    """Makes the table."""
    parser = argparse.ArgumentParser(description=__doc__, formatter_class=argparse.RawDescriptionHelpFormatter)
    parser.add_argument("--enclosed", action="store_true")
    parser.add_argument("--guest", nargs="+", metavar="NAME")
    parser.add_argument("--compiler", default="gcc", metavar="NAME")
    parser.add_argument("--seconds", type=int, default=60, metavar="N")
    parser.add_argument("--flowcheck", default=os.environ.get("FLOWCHECK"), metavar="COMMAND")
    words, answered, exact, wrong = parser.parse_args(), 0, 0, []
    print("| Guest | Secret, bytes | True outputs | Measured, bits | Bound | Bits | Of | Seen | Seconds |")
    print("|---|---|---|---|---|---|---|---|---|")
    guests = ENCLOSED if words.enclosed else GUESTS
    chosen = [guest for guest in guests if words.guest is None or guest[0] in words.guest]
    for guest in chosen:
        with tempfile.TemporaryDirectory(prefix="kinds-") as folder:
            kind = Kind(folder, guest, words)
        print("| " + " | ".join(map(str, kind.row())) + " |", flush=True)
        outputs = kind.outputs()
        answered += outputs is not None
        exact += outputs == kind.truth
        wrong += [kind.name] if outputs is not None and outputs < kind.truth else []
    print(f"{len(chosen)} guests, {answered} answered, {exact} exact, {len(wrong)} wrong {' '.join(wrong)}".rstrip())
    return 1 if wrong else 0


if __name__ == "__main__":
    sys.exit(main())
