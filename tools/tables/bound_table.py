#!/usr/bin/env python3
"""Bounds the outputs of the guests of examples/ and of three of guests/, and tries other secrets.

Call: bound_table.py [--others N] [--seed N] [--guest NAME...] [--compiler NAME] [--rules N] [--paths N]
                     [--flowcheck COMMAND]

Of each guest it measures a secret, and looks for a cut as bound.py does, beginning with the measured one. Four have a
region each, which regions.py writes of some secrets. Then N other secrets (1,000 without the option) are drawn
by the seed (1 without it): half of them as the guest expects them, half of any bytes. Each is run by `qemu-riscv32`
(Debian qemu-user), and its output is looked for among those of the list. The model runs what qemu does not load, the
guest of examples/bit, and all where qemu is not there.

Prints the table of docs/GUIDE.md: the bytes of the secret, the bits that were measured of one secret, the regions, the
paths and the outputs, `-` for 2^64 or more, the bits of the outputs, the seconds of the last call of `bound`, and how
many of the others have a listed output. The program is the option, or the built one, or the model. The status is 1
where an output is not listed; with a region it may be that of a run that breaks it, which `check` says."""
import argparse
import concurrent.futures
import os
import random
import shutil
import subprocess
import sys
import tempfile
import time

TOOLS = os.path.dirname(os.path.dirname(os.path.abspath(__file__)))
sys.path[:0] = [os.path.join(TOOLS, name) for name in ("explain", "model", "guests", "")]

from answering import Program
from bounding import SEARCH_RULES, Bounding, found
from elf_symbols import ProgramFile
from guest_folder import GuestFolder, content
from run_facts import Inputs, read
from verdicts import real_run

ROUNDS, LEARNT, JOBS = 60, 24, 8
ASSEMBLED = "examples/bit/program"
PIN = "crates/machine_rows/data/pin-gcc.elf"
SMALL = "abcdefghijklmnopqrstuvwxyz"


def passwords(dice):
    """A password with so many letters right, each number as often, and others at random."""
    right = dice.randrange(9)
    return ("tortilla"[:right] + "".join(dice.choice(SMALL) for _ in range(8 - right))).encode()


def names(dice):
    """A name of 1 to 12 letters, each length as often."""
    length = dice.randint(1, 12)
    return (dice.choice(SMALL).upper() + "".join(dice.choice(SMALL) for _ in range(length - 1))).ljust(12, ".").encode()


def auctions(dice):
    """The bids of an auction."""
    return "".join(f"{dice.randrange(80, 999):03}" for _ in range(4)).encode()


def readings(dice):
    """Five readings, most of which are usual."""
    usual = [(12, 20), (96, 100), (111, 219), (51, 90), (61, 80)]
    return bytes(dice.randint(*one) if dice.random() < 0.75 else dice.randrange(256) for one in usual)


def contacts(dice):
    """Eight different numbers below 32 in ascending order."""
    return bytes(sorted(dice.sample(range(32), 8)))


def any_bytes(length):
    """How any bytes are drawn."""
    return lambda dice: bytes(dice.randrange(256) for _ in range(length))


def digits(count):
    """How digits are drawn."""
    return lambda dice: "".join(dice.choice("0123456789") for _ in range(count)).encode()


def tried_pins(dice):
    """A PIN, a third of the time one that is tried."""
    return dice.choice([b"0000", b"1111", b"1234"]) if dice.random() < 0.33 else digits(4)(dice)


def tried_passwords(dice):
    """A password, a third of the time one that is tried."""
    tried = [b"tortilla", b"torturer", b"tortoise"]
    return dice.choice(tried) if dice.random() < 0.33 else "".join(dice.choice(SMALL) for _ in range(8)).encode()


def votes(dice):
    """Fifteen votes."""
    return bytes(dice.choice(b"AB-") for _ in range(15))


def groups(dice):
    """The groups of twenty records."""
    return bytes(dice.randrange(6) for _ in range(20))


# The name, the source or the program file, the public input, how a secret is drawn, and what a region is put around.
GUESTS = [
    ("bit", ASSEMBLED, b"", any_bytes(1), None),
    ("pin", PIN, content("examples/guests/typed"), tried_pins, None),
    ("early", "examples/password/early.c", content("examples/password/typed"), passwords, None),
    ("constant", "examples/password/constant.c", content("examples/password/typed"), passwords, None),
    ("login", "examples/bound/login.c", content("examples/bound/tries"), tried_passwords, None),
    ("hashed", "examples/bound/hashed.c", content("examples/bound/hash"), tried_passwords, None),
    ("stars", "examples/redactor/stars.c", content("examples/redactor/letter"), names, None),
    ("initial", "examples/redactor/initial.c", content("examples/redactor/letter"), names, None),
    ("card", "examples/bound/card.c", content("examples/bound/bill"), digits(16), None),
    ("battleship", "examples/bound/battleship.c", content("examples/bound/shots"), any_bytes(8), None),
    ("open", "examples/auction/open.c", content("examples/auction/lowest"), auctions, None),
    ("sealed", "examples/auction/sealed.c", content("examples/auction/lowest"), auctions, "settle"),
    ("median", "tools/guests/median.c", b"", any_bytes(15), "median.c:10-15"),
    ("warning", "tools/guests/warning.c", b"", readings, "score"),
    ("contacts", "tools/guests/contacts.c", bytes([2, 5, 6, 9, 12, 16, 21, 28]), contacts, "shared"),
    ("pinpad", "examples/pinpad/pinpad.c", content("examples/pinpad/typed"), tried_pins, None),
    ("printed", "examples/auction/printed.c", b"", any_bytes(32), None),
    ("rising", "examples/meeting/auction.c", b"", any_bytes(8), None),
    ("sorted", "examples/meeting/median.c", b"", any_bytes(15), None),
    ("votes", "examples/meeting/votes.c", b"", votes, None),
    ("luhn", "examples/meeting/luhn.c", b"", digits(16), None),
    ("records", "examples/meeting/records.c", b"", groups, None),
]


class Guest(GuestFolder):
    """A guest in a folder of its own, with its input, its regions and the search for its cut."""

    def __init__(self, folder, words, guest):
        self.name, self.source, public, self.draw, around = guest
        super().__init__(folder)
        self.asked, self.dice = Program(words.flowcheck), random.Random(f"{guest[0]} {words.seed}")
        has_source = self.source.endswith(".c")
        made = self.built(words.compiler, self.source) if has_source else self.write("guest.elf", content(self.source))
        self.program = made
        self.public = self.write("public", public)
        self.first = self.write("first", self.draw(self.dice))
        options = ["--regions", self.write("regions", self.regions(around))] if around else []
        options += ["--rules", words.rules, "--paths", str(words.paths)]
        inputs = Inputs(self.program, self.public, None, options)
        self.bounding = Bounding(self.asked, inputs, ProgramFile(read(self.program)))

    def regions(self, around):
        """The region file around a function or lines, by some secrets."""
        script = os.path.join(TOOLS, "regions.py")
        words = [sys.executable, script, self.program, around, "--public", self.public, "--code"]
        for number in range(LEARNT):
            words += ["--secret", self.write(f"learnt{number}", self.draw(self.dice))]
        words += ["--flowcheck", " ".join(self.asked.words)] if self.asked.words else []
        return subprocess.run(words, stdout=subprocess.PIPE, stderr=subprocess.DEVNULL, check=True).stdout

    def bounded(self):
        """The number that was measured, the answer, and the seconds of asking for it."""
        beginnings = self.bounding.beginnings([self.first])
        bits = beginnings[0][1].bits
        answer, _ = found(self.bounding, beginnings, ROUNDS, bits, lambda text: None)
        begin = time.monotonic()
        self.bounding.answer(answer.cut, answer.budget)
        return bits, answer, time.monotonic() - begin

    def others(self, count):
        """Other secrets: half of them as they are expected, half of any bytes."""
        length = os.path.getsize(self.first)
        return [(self.draw if number % 2 else any_bytes(length))(self.dice) for number in range(count)]

    def outputs(self, secrets):
        """The bytes and the status of each secret's run; None where it does not exit."""
        os.chmod(self.program, 0o755)
        run = self.qemu_output if shutil.which("qemu-riscv32") and self.source != ASSEMBLED else self.model_output
        with concurrent.futures.ThreadPoolExecutor(JOBS if run == self.qemu_output else 1) as pool:
            return list(pool.map(run, secrets, range(len(secrets))))

    def qemu_output(self, secret, number):
        """That of a run by qemu."""
        words = ["sh", "-c", 'exec qemu-riscv32 "$0" <"$1" 3<"$2"', self.program, self.public]
        done = subprocess.run([*words, self.write(f"secret{number}", secret)], stdout=subprocess.PIPE, check=False)
        return (done.stdout, done.returncode) if done.returncode >= 0 else None

    def model_output(self, secret, _):
        """That of a run by the model."""
        real = real_run(self.bounding.program.image, read(self.public), secret, [], self.bounding.turns)
        return (bytes(real.guest.output), real.ending[1]) if real.ending[0] == "exited" else None


def row(guest, others):
    """The cells of a guest, and the outputs of others that are not listed."""
    bits, answer, seconds = guest.bounded()
    length = answer.cut.secret_length
    regions = len(guest.bounding.regions)
    if not answer.is_bounded:
        return [guest.name, length, bits, regions, "-", "-", "-", f"{seconds:.1f}", f"unclear {answer.reason}"], []
    outputs = guest.outputs(guest.others(others))
    missing = [one for one in outputs if one and not any(pattern.holds(*one) for pattern in answer.patterns)]
    missing += [one for one in outputs if one is None and answer.is_of_all()]
    numbers, listed = answer.numbers, others - len(missing) - outputs.count(None)
    paths, counted = ("-" if number is None else f"{number:,}" for number in (numbers["paths"], numbers["outputs"]))
    cells = [guest.name, length, bits, regions, paths, counted, numbers["bits"], f"{seconds:.1f}"]
    return [*cells, f"{listed:,} of {others:,}, {len(set(outputs) - {None}):,} different"], missing


def main():
    """Makes the table."""
    parser = argparse.ArgumentParser(description=__doc__, formatter_class=argparse.RawDescriptionHelpFormatter)
    parser.add_argument("--others", type=int, default=1000, metavar="N")
    parser.add_argument("--seed", type=int, default=1, metavar="N")
    parser.add_argument("--guest", nargs="+", default=[guest[0] for guest in GUESTS], metavar="NAME")
    parser.add_argument("--compiler", default="gcc", metavar="NAME")
    parser.add_argument("--rules", default=SEARCH_RULES, metavar="N")
    parser.add_argument("--paths", type=int, default=1 << 16, metavar="N")
    parser.add_argument("--flowcheck", metavar="COMMAND")
    words, unlisted = parser.parse_args(), 0
    print("| Guest | Secret, bytes | Measured, bits | Regions | Paths | Outputs | Bits | Seconds | Others |")
    print("|---|---|---|---|---|---|---|---|---|")
    for guest in GUESTS:
        if guest[0] in words.guest:
            with tempfile.TemporaryDirectory() as folder:
                cells, missing = row(Guest(folder, words, guest), words.others)
            print("| " + " | ".join(map(str, cells)) + " |", flush=True)
            for written, status in (one or (b"no exit", "-") for one in missing[:3]):
                print(f"not listed, of {guest[0]}: {written} status {status}")
            unlisted += len(missing)
    return 1 if unlisted else 0


if __name__ == "__main__":
    sys.exit(main())
