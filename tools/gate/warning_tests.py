"""Tests of what explain.py, lint.py and sweep.py say where an answer is right and may mislead.

Call: warning_tests.py

The status is 1 where something is wrong."""
import hashlib
import os
import sys

sys.path.insert(0, os.path.dirname(os.path.abspath(__file__)))

from expecting import PIN, TOP, Expectations, run_tests

BIT = [os.path.join(TOP, "examples/bit", name) for name in ("program", "public", "secret3")]
PIN_CUT = os.path.join(TOP, "examples/guests/cut")
OTHER = os.path.join(TOP, "crates/machine_rows/data/pin-clang.elf")
SUM = os.path.join(TOP, "crates/machine_rows/data/gcc-default.elf")
LONE = b"flowcheck-cut 1\nsecret 1\nbits 1\nskip 7\npoint 0 0x00010018 rs rest 0x00000001\nend\n"
POINTS = b"point 0 0x00010018 rs rest 0x00000001\npoint 1 0x00010018 rs rest 0x00000001\n"
NEVER = b"flowcheck-cut 1\nsecret 1\nbits 1\n" + POINTS + b"end\n"
REGION = b'{"regions": [{"id": 1, "enter": "0x10040", "leave": "0x10044"}]}'


class WarningTests(Expectations):
    """The tests."""

    def told(self, what, words, expected, script="explain.py", is_told=True):
        """A script must say some words, in its text or on standard error, or must not say them."""
        status, output, error = self.call(script, *words)
        text = " ".join((output + error).split())
        self.expect(f"{what}: {script} {expected}", (expected in text) == is_told, f"status {status}\n{output}{error}")

    def test_reads(self):
        """What the guest does not read, and a number that is 0."""
        self.write(long=b"1234567", none=b"", four=b"1234")
        for words, expected in (([PIN[0], PIN[1], self.path("long")], "read 4 of 7 bytes of the secret long"),
                                ([SUM, PIN[1], self.path("four")], "read 0 of 4 bytes of the secret four"),
                                ([SUM, PIN[1], self.path("four")], "The number is 0"),
                                ([SUM, PIN[1], self.path("none")], "The secret none has no byte")):
            self.told("reads", [*words, "--text"], expected)
        for expected in ("What may mislead", "The number is 0"):
            self.told("reads", [*PIN, "--text"], expected, is_told=False)
        self.told("reads", [SUM, PIN[1], self.path("four")], "read 0 of 4 bytes")
        self.told("reads", [PIN[0], PIN[1], PIN[2], self.path("four"), "--text"], "What may mislead", is_told=False)
        self.told("reads", [SUM, PIN[1], self.path("four"), self.path("four"), "--text"], "read 0 of 4 bytes")
        words = [PIN[0], PIN_CUT, "--public", PIN[1], "--secret"]
        self.told("reads", [*words, self.path("long")], "read 4 of 7 bytes", "lint.py")
        self.told("reads", [*words, PIN[2]], "nothing found", "lint.py")
        self.told("reads", [SUM, "--secret", self.path("four")], "read 0 of 4 bytes", "lint.py")

    def test_cuts(self):
        """A cut of another program, one that skips no region, and one with points that no run passes."""
        self.write(lone=LONE, never=NEVER, regions=REGION)
        for script, other, lone, never in (
            ("lint.py", [OTHER, PIN_CUT], [BIT[0], self.path("lone")],
             [BIT[0], self.path("never"), self.path("regions"), "--public", BIT[1], "--secret", BIT[2]]),
            ("explain.py", [OTHER, PIN[1], "--check", PIN_CUT, "3", PIN[2], "--text"],
             [*BIT[:2], "--check", self.path("lone"), "1", BIT[2], "--text"],
             [*BIT[:2], "--check", self.path("never"), "1", BIT[2], "--regions", self.path("regions"), "--text"]),
        ):
            self.told("cuts", other, "no place of this program is at 2 of its 2 points", script)
            self.told("cuts", lone, "skip 7", script)
            self.told("cuts", never, "1 of the cut's 2 points: 1 0x00010018 rs", script)
        for kind, secret in (("--bound", []), ("--taint", [PIN[2]])):
            self.told("cuts", [OTHER, PIN[1], kind, PIN_CUT, "3", *secret, "--text"], "no place of this program")
        self.told("cuts", [*PIN[:2], "--check", PIN_CUT, "3", PIN[2], "--text"], "What may mislead", is_told=False)

    def test_hashes(self):
        """The program's hash stands on its page, and an earlier page of another program is told of."""
        with open(PIN[0], "rb") as file:
            digest = hashlib.sha256(file.read()).hexdigest()
        page, other = self.path("pin.html"), self.path("other.html")
        self.call("explain.py", *PIN, "--output", page)
        self.call("explain.py", OTHER, *PIN[1:], "--output", other)
        with open(page, encoding="utf-8") as file:
            self.expect("hashes: page", f"SHA-256 {digest}" in file.read())
        self.told("hashes", [*PIN, "--against", other, "--text"], "of another build: its SHA-256")
        self.told("hashes", [*PIN, "--against", page, "--text"], "of another build: its SHA-256", is_told=False)

    def test_sweeps(self):
        """A sweep with the cut of another program is told of before it begins."""
        words = [PIN[1], PIN_CUT, "3", "--digits", "1", "--flowcheck", sys.executable, "--results"]
        for program, is_told in ((OTHER, True), (PIN[0], False)):
            named = [program, *words, self.path(f"results{is_told}")]
            self.told("sweeps", named, "note: The cut: no place of this program", "sweep.py", is_told)


if __name__ == "__main__":
    sys.exit(run_tests(WarningTests, __doc__))
