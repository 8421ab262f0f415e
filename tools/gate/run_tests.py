"""Tests of run.py, and of the output on the pages of explain.py.

Call: run_tests.py

The stored guest of a PIN and guests that are built, where there are compilers, are run by the model and, where it is
there, by qemu: both must write the same, end the same and have read the same. The status is 1 where something is
wrong."""
import os
import shutil
import sys

sys.path.insert(0, os.path.dirname(os.path.abspath(__file__)))

from expecting import PIN, TOP, Expectations, compilers, run_tests

HALF = """
#include "flowcheck.h"
int main(void) {
    unsigned char bytes[4], typed[2];
    read_public(typed, 2);
    read_secret(bytes, 4);
    write_output("\\x01 a\\\\b\\n", 6);
    guest_call(CALL_WRITE, 2, bytes, 2);
    return 7;
}
"""
ENDLESS = '#include "flowcheck.h"\nint main(void) { write_output("on\\n", 3); for (;;) { } }\n'


class RunTests(Expectations):
    """The tests."""

    def by_all(self, *words):
        """What each of those that can run a guest answers: the status, the output and the lines on standard error."""
        for by in ["model"] + ["qemu"] * (shutil.which("qemu-riscv32") is not None):
            yield by, *self.call("run.py", *words, "--by", by)

    def test_pin(self):
        """The stored guest."""
        for by, status, output, error in self.by_all(*PIN):
            told = ["exited with status 3", "wrote 4 bytes", "read 12 of 12 bytes of the public input",
                    "read 4 of 4 bytes of the secret"]
            self.expect(f"runs: pin by {by}", (status, output) == (0, "yes\n"), output)
            self.expect(f"told: pin by {by}", all(words in error for words in told), error)

    def test_parts(self):
        """A guest that reads a part of its inputs, and writes by both descriptors."""
        self.write(half_c=HALF, secret=b"secrets!", public=b"abc")
        for compiler in compilers():
            elf = self.built("half.c", compiler)
            for by, status, output, error in self.by_all(elf, self.path("public"), self.path("secret")):
                told = ["exited with status 7", "read 2 of 3 bytes", "read 4 of 8 bytes"]
                self.expect(f"runs: half by {compiler}, {by}", (status, output) == (0, "\x01 a\\b\nse"), repr(output))
                self.expect(f"told: half by {compiler}, {by}", all(words in error for words in told), error)
            status, text, _ = self.call("explain.py", elf, self.path("public"), self.path("secret"), "--text")
            told = ["\\x01 a\\\\b\\n", "It wrote 8 bytes and exited with status 7", "2 of 3 bytes", "4 of 8 bytes"]
            self.expect(f"pages: half by {compiler}", all(words in " ".join(text.split()) for words in told), text)

    def test_ends(self):
        """A guest that does not exit has no status, and the script ends with 1."""
        self.write(endless_c=ENDLESS, nothing=b"")
        for compiler in compilers()[:1]:
            words = [self.built("endless.c", compiler), self.path("nothing"), self.path("nothing")]
            for more in (["--turns", "1000"], ["--by", "qemu", "--seconds", "8"]):
                if more[0] == "--turns" or shutil.which("qemu-riscv32"):
                    status, output, error = self.call("run.py", *words, *more)
                    is_right = (status, output) == (1, "on\n") and "did not exit within" in error
                    self.expect(f"ends: {' '.join(more)}", is_right, output + error)

    def test_regions(self):
        """A run that breaks a region is stopped."""
        self.write(regions='{"regions": [{"id": 1, "enter": "0x10018", "leave": "0x1001c"}]}', bad='{"regions": 1}')
        words = [os.path.join(TOP, "examples/bit", name) for name in ("program", "public", "secret3")]
        status, _, error = self.call("run.py", *words, "--regions", self.path("regions"))
        self.expect("regions: broken", status == 1 and "region 1 undeclared x10" in error, error)
        status, _, error = self.call("run.py", *words, "--regions", self.path("bad"))
        self.expect("regions: malformed", status == 3 and "refused 3 regions shape 0" in error, error)

    def test_faults(self):
        """Files that cannot be used."""
        for words, expected, told in (
            ([PIN[0], PIN[1], "missing"], 3, "missing: No such file"),
            ([PIN[1], PIN[1], PIN[2]], 3, "refused 3 program"),
            ([*PIN, "--turns", "0"], 2, "from 1 to"),
            ([*PIN, "--by", "qemu", "--turns", "5"], 2, "of the model's run"),
            (PIN[:2], 2, "required"),
        ):
            status, output, error = self.call("run.py", *words)
            self.expect(f"faults: {told}", (status, output) == (expected, "") and told in error, error)


if __name__ == "__main__":
    sys.exit(run_tests(RunTests, __doc__))
