"""Tests of enclose.py: on four guests it must reach the number of the region that people write.

Call: enclose_tests.py [--flowcheck COMMAND]

Each guest is built with each compiler that is there. Prints for each the number without regions, with a region that
regions.py writes around what is named here, and with what enclose.py finds, its measurements and its seconds, and how
many of the other secrets are accepted then. The program is the option, or FLOWCHECK, or the built one, else the
model."""
import argparse
import os
import random
import re
import sys
import tempfile

TOOLS = os.path.dirname(os.path.dirname(os.path.abspath(__file__)))
sys.path[:0] = [os.path.join(TOOLS, name) for name in ("explain", "model", "guests")]

from answering import Program
from expecting import compilers
from guest_folder import GuestFolder
from picture_tests import output

OTHERS = 20
GUESSES = ["tortilla", "tortoise", "tomatoes", "password", "topazes.", "tortilly"]


def auctions(dice):
    """The bids of an auction."""
    return "".join(f"{dice.randrange(80, 999):03}" for _ in range(4)).encode()


def values(dice):
    """Fifteen bytes."""
    return dice.randbytes(15)


def halves(dice):
    """Sixteen bytes."""
    return dice.randbytes(16)


def password(dice):
    """A password, which often begins as what is typed."""
    return dice.choice(GUESSES).encode()


GUESTS = [
    ("auction", "examples/auction/sealed.c", b"100", b"120310275090", auctions, ["settle"], 12),
    ("median", "tools/guests/median.c", b"", bytes(range(15, 0, -1)), values, ["median.c:10-15"], 8),
    ("password", "tools/guests/password.c", b"tortilla", b"tortoise", password, ["right_letters"], 2),
    ("places", "tools/guests/places.c", b"", bytes(range(16)), halves, ["greatest", "longest"], 6),
]


class Tests(GuestFolder):
    """The tests in a folder."""

    def __init__(self, folder, flowcheck):
        super().__init__(folder)
        self.asked, self.wrongs = Program(flowcheck), []
        self.flowcheck = ["--flowcheck", flowcheck] if flowcheck else []

    def bits(self, *words):
        """The number that `measure` has."""
        status, text = self.asked.answer(["measure", *words])
        return text if status else text.split("\nbits ")[1].split("\n")[0]

    def try_guest(self, compiler, guest):
        """Tries a guest, and prints what came out."""
        name, source, public, secret, other, named, expected = guest
        elf, dice = self.built(compiler, source), random.Random(name)
        run = [elf, self.write("public", public), self.write("secret", secret)]
        others = [self.write(f"other{number}", other(dice)) for number in range(OTHERS)]
        secrets = [word for file in [run[2], *others] for word in ("--secret", file)]
        _, text = output("regions.py", elf, *named, "--public", run[1], *secrets, *self.flowcheck)
        self.write("written", text[text.find("{") :].encode())
        written = self.bits(*run, "--regions", self.path("written"))
        found = self.path("found")
        status, text = output("enclose.py", *run, *others, "--output", found, *self.flowcheck)
        table = re.search(r"(\d+) candidates, (\d+) measurements, (\S+) seconds", text)
        numbers = re.findall(r" (\d+) +(\d+) of \d+\n", text)
        is_reached = not status and table and numbers and written == numbers[-1][0] == str(expected)
        if not is_reached or int(numbers[-1][1]) < int(numbers[0][1]):
            self.wrongs.append(f"{name} by {compiler}: written {written}, expected {expected}\n{text}")
            return
        print(f"{name:10}{compiler:7}{numbers[0][0]:>9}{written:>9}{numbers[-1][0]:>7}{table[1]:>12}{table[2]:>14}"
              f"{table[3]:>9}{numbers[0][1]:>17}{numbers[-1][1]:>8} of {OTHERS}", flush=True)


def main():
    """Runs the tests."""
    parser = argparse.ArgumentParser(description=__doc__.split("\n")[0])
    parser.add_argument("--flowcheck", default=os.environ.get("FLOWCHECK"))
    words = parser.parse_args()
    print(f"{'guest':10}{'by':7}{'without':>9}{'written':>9}{'found':>7}{'candidates':>12}{'measurements':>14}"
          f"{'seconds':>9}{'accepted before':>17}{'after':>8}")
    with tempfile.TemporaryDirectory(prefix="enclose-") as folder:
        tests = Tests(folder, words.flowcheck)
        for compiler in compilers():
            for guest in GUESTS:
                tests.try_guest(compiler, guest)
    print("\n".join(tests.wrongs) or "all right")
    return 1 if tests.wrongs else 0


if __name__ == "__main__":
    sys.exit(main())
