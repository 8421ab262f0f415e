"""Tests of bound.py: cuts are looked for of random guests.

Call: bound_tests.py [--first SEED] [--count N] [--flowcheck COMMAND]

Of N random guests (60 without the option) from this seed (1) on it looks for a cut, with at most 24 walks and 400
turns, beginning without a point and then with a random cut; by the tables of rules in turn, and of each second guest of
any public input. Where it comes to no answer there must be too many paths. What it finds must be as `bound` answers. In
the points of a cut that began without one tools/lint.py must find nothing, but that a random program file does not say
of its code that it is. With the cut and its budget `check` must accept 20 random secrets, each with a random public
input where that may be any, or say that the run stops, breaks a region or does not exit; of a guest with neither
regions nor stops it must accept all. Then it looks for cuts of guests in C, where a compiler is there, and what it says
of each must have these words: of a PIN pad the sentence of any public input, and of guests whose states part the line
at which they do, with what keeps them apart. FLOWCHECK, or the option, is the program; without it the built one is
taken, else the model. The status is 1 where something is wrong."""
import argparse
import os
import random
import shutil
import subprocess
import sys
import tempfile
from collections import Counter

TOOLS = os.path.dirname(os.path.dirname(os.path.abspath(__file__)))
sys.path[:0] = [os.path.join(TOOLS, name) for name in ("", "explain", "model", "guests")]

from answering import Program
from bound_trials import bound_trial
from bound_words import bounded_lines, unclear_lines
from bounding import Bounding, NoBound, found
from cuts import read_cut
from elf_symbols import ProgramFile
from guest_folder import GuestFolder
from lint import Lint
from parting import Parting
from programs import random_bytes
from run_facts import Inputs
from source_lines import Places

PATHS, TURNS, ROUNDS, SECRETS = 24, 400, 40, 20
ENDED = ("region", "guest", "turns")
APART = "What keeps them apart there: "
# The source, the public input, the length of the secret, options, the status and texts that must be printed.
GUESTS = [
    ("examples/pinpad/pinpad.c", bytes(12), 4, ["--any-public"], 0,
     ["Whatever is typed (12 bytes) and whatever the 4 secret bytes are, the output is one of 4; three runs give away "
      "at most 6 bits."]),
    ("tools/guests/kept_count.c", b"", 24, ["--paths", "256"], 1,
     ["Most states part at this decision", "values[at] > LIMIT", f"{APART}register ", "kept *= 2", "clear or over"]),
    ("tools/guests/divisor.c", b"", 2, ["--paths", "256"], 1,
     ["This loop has no end for the walk: ", "divisor.c:9", "noinline"]),
    ("tools/guests/kept_bytes.c", b"", 24, ["--paths", "256"], 1,
     [APART, " bytes on the stack", "high[at] = ", "decide before you store"]),
]


class Trial(GuestFolder):
    """A random guest in a folder."""

    def __init__(self, folder, seed, flowcheck):
        super().__init__(folder)
        self.seed, self.asked = seed, Program(flowcheck)
        files, _ = bound_trial(seed)
        for name, data in files.items():
            self.write(name, data)
        options = ["--turns", str(TURNS), "--paths", str(PATHS), "--rules", str(1 + seed % 3)]
        options += ["--regions", self.path("regions")] if "regions" in files else []
        self.program, self.cut = ProgramFile(files["program"]), read_cut(files["cut"])
        self.length = len(files["public"])
        self.inputs = Inputs(self.path("program"), self.path("public"), None, options)
        self.bounding = Bounding(self.asked, self.inputs, self.program, seed // 3 % 2 == 1)

    def wrongs(self):
        """How the searches end, and what is wrong with them."""
        beginnings = [("without a point", self.bounding.empty(self.cut.secret_length)), ("with a cut", self.cut)]
        for beginning in beginnings:
            try:
                answer, walk = found(self.bounding, [beginning], ROUNDS, None, lambda text: None)
            except NoBound as fault:
                yield "refused", f"{beginning[0]}: {fault}"
                continue
            if answer.is_bounded:
                yield "bounded", None
                yield from self.bounded_wrongs(answer, beginning[0])
                bounded_lines(answer, "public", TURNS, None, [])
            else:
                parting = Parting(self.bounding.task(answer.cut, answer.budget)) if answer.is_waiting() else None
                unclear_lines(answer, walk, self.program, Places(self.path("program"), self.program), [], parting)
                is_many = answer.reason.startswith("paths")
                yield answer.reason.split()[0], None if is_many else f"{beginning[0]}: {answer.reason}"

    def drawn(self, name, dice, length):
        """Files of random bytes."""
        return [self.write(f"{name}{number}", random_bytes(dice, length)) for number in range(SECRETS)]

    def bounded_wrongs(self, answer, name):
        """What is wrong with a cut that was found."""
        if self.bounding.answer(answer.cut, answer.budget).line != answer.line:
            yield "answered", f"{name}: `bound` answers another line"
        if name == "without a point":
            findings = Lint(self.program, answer.cut, self.bounding.regions).all()
            findings = [text for text in findings if text.startswith("point") and "no instruction" not in text]
            yield "linted", "; ".join(findings) or None
        dice, cut = random.Random(f"tests {self.seed}"), self.write("found", answer.cut.text().encode())
        secrets = self.drawn("secret", dice, answer.cut.secret_length)
        publics = self.drawn("public", dice, self.length) if self.bounding.is_any_public else [self.inputs.public]
        for number, public in enumerate(publics):
            named = secrets[number : number + 1] if self.bounding.is_any_public else secrets
            words = ["check", self.inputs.program, public, cut, str(answer.budget), *named]
            lines = self.asked.answer([*words, *self.inputs.without("--paths", "--rules")])[1].split("\n")
            for line in lines[: len(named)]:
                told = line.split()
                is_ended = told[0] == "rejected" and told[2] in ENDED and not answer.is_of_all()
                yield f"secrets {told[0]}", None if told[0] == "accepted" or is_ended else f"{name}: {line}"


def guest_wrongs(folder, compiler, flowcheck):
    """What is wrong with what bound.py says of guests in C."""
    files = GuestFolder(folder)
    for source, public, length, options, status, wanted in GUESTS:
        program = files.built(compiler, source)
        words = [sys.executable, os.path.join(TOOLS, "bound.py"), program, files.write("public", public), str(length)]
        words += [*options, "--output", files.path("cut"), *(["--flowcheck", flowcheck] if flowcheck else [])]
        done = subprocess.run(words, stdout=subprocess.PIPE, stderr=subprocess.STDOUT, check=False, text=True)
        told = " ".join(done.stdout.split())
        missing = [text for text in wanted if text not in told]
        is_right = done.returncode == status and not missing
        yield os.path.basename(source), None if is_right else f"{source}: {missing}\n{done.stdout}"


def main():
    """Runs the tests."""
    parser = argparse.ArgumentParser(description=__doc__, formatter_class=argparse.RawDescriptionHelpFormatter)
    parser.add_argument("--first", type=int, default=1, metavar="SEED")
    parser.add_argument("--count", type=int, default=60, metavar="N")
    parser.add_argument("--flowcheck", default=os.environ.get("FLOWCHECK"))
    words, counts, wrong = parser.parse_args(), Counter(), 0
    for seed in range(words.first, words.first + words.count):
        with tempfile.TemporaryDirectory() as folder:
            for kind, fault in Trial(folder, seed, words.flowcheck).wrongs():
                counts[kind] += 1
                if fault:
                    wrong += 1
                    print(f"seed {seed}: {fault}", flush=True)
    if shutil.which("riscv64-unknown-elf-gcc"):
        with tempfile.TemporaryDirectory() as folder:
            for kind, fault in guest_wrongs(folder, "gcc", words.flowcheck):
                counts[kind] += 1
                if fault:
                    wrong += 1
                    print(fault, flush=True)
    print(", ".join(f"{count} {kind}" for kind, count in sorted(counts.items())))
    print(f"{wrong} wrong" if wrong else "all right")
    return 1 if wrong else 0


if __name__ == "__main__":
    sys.exit(main())
