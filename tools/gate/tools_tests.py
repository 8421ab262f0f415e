"""Tests of what the scripts for users have in common, and of small things about them.

Call: tools_tests.py

Each script has a help, takes no wrong words, and says of a file that cannot be used what is wrong, without a traceback.
The status is 1 where something is wrong."""
import os
import re
import shlex
import subprocess
import sys

sys.path.insert(0, os.path.join(os.path.dirname(os.path.dirname(os.path.abspath(__file__))), "sweep"))

from compare_outputs import output_text
from expecting import PIN, TOP, Expectations, compilers, run_tests

CUT = os.path.join(TOP, "examples/guests/cut")
OTHER = os.path.join(TOP, "crates/machine_rows/data/pin-clang.elf")
WORDS = {
    "run.py": PIN,
    "explain.py": PIN,
    "lint.py": [PIN[0], CUT],
    "regions.py": [PIN[0], "main", "--public", PIN[1], "--secret", PIN[2]],
    "enclose.py": PIN,
    "bound.py": PIN,
}
PLUS = """
#include "flowcheck.h"
namespace box {
static volatile unsigned char seen;
__attribute__((noinline)) int parity(int x)
{ int p = 0; for (int i = 0; i < 8; i++) p ^= x >> i & 1; seen = p; return p; }
}
int main() { unsigned char s; read_secret(&s, 1); return box::parity(s); }
"""
COLOURS = ("In red", "In blue", "amber", "colour")


class ToolsTests(Expectations):
    """The tests."""

    def test_words(self):
        """Help, wrong words and files that cannot be used."""
        self.write(text=b"no program")
        for script, words in WORDS.items():
            status, output, error = self.call(script, "--help")
            is_told = all(word in output for word in ("Call: " + script, "PROG"))
            self.expect(f"words: {script} --help", (status, error) == (0, "") and is_told, output + error)
            status, _, error = self.call(script)
            self.expect(f"words: {script}", status == 2 and "required" in error, error)
            status, _, error = self.call(script, *words, "--strange")
            self.expect(f"words: {script} --strange", status == 2 and "--strange" in error, error)
            for name, told in (("missing", "No such file"), ("text", "refused 3 program truncated")):
                status, _, error = self.call(script, self.path(name), *words[1:])
                self.expect(f"words: {script} {told}", status == 3 and name in error and told in error, error)

    def test_folders(self):
        """The commands of a page run from the folder where it was made."""
        os.makedirs(self.path("below"), exist_ok=True)
        folder = self.path("below")
        names = [os.path.relpath(name, folder) for name in PIN]
        _, text, _ = self.call("explain.py", *names, "--text", folder=folder)
        lines = [line.strip() for line in text.split("\n") if re.match(r"    (\S*flowcheck|python3) ", line)]
        self.expect("folders: commands", len(lines) == 5, text)
        for line in lines:
            line = line.replace("OTHER", shlex.quote(names[2]))
            done = subprocess.run(["sh", "-c", line], cwd=folder, capture_output=True, text=True, check=False)
            self.expect(f"folders: {line}", done.returncode == 0, done.stdout + done.stderr)

    def test_texts(self):
        """A text for the terminal has no colours, a page has, and one byte is no `1 bytes`."""
        page = self.path("pin.html")
        text = self.call("explain.py", *PIN, "--text")[1]
        self.call("explain.py", *PIN, "--output", page)
        with open(page, encoding="utf-8") as file:
            self.expect("texts: colours of a page", "In red" in file.read())
        self.expect("texts: colours", not any(word in text for word in COLOURS) and "Marked by >" in text, text)
        self.expect("texts: outputs", output_text(bytes(50)) == f"{bytes(40)!r} and 10 bytes more")
        self.expect("texts: a byte more", output_text(bytes(41)).endswith(" and 1 byte more"))
        self.expect("texts: short outputs", output_text(b"yes") == "b'yes'")

    def test_names(self):
        """Names of C++ as they are written, and a program without symbols."""
        self.write(nothing=b"", secret=b"a")
        with open(self.path("plus.cpp"), "w", encoding="utf-8") as file:
            file.write(PLUS)
        for compiler in compilers():
            self.make("-B", f"COMPILER={compiler}", "plus.elf")
            elf, words = self.path("plus.elf"), ["--secret", self.path("secret")]
            for name in ("box::parity", "parity", "box::parity(int)"):
                status, text, error = self.call("regions.py", elf, name, *words)
                self.expect(f"names: {name} by {compiler}", status == 0 and "the call of box::parity" in error, error)
            text = self.call("explain.py", elf, self.path("nothing"), self.path("secret"), "--text")[1]
            self.expect(f"names: page by {compiler}", "box::parity" in text and "_ZN3box" not in text, text)
        bare = self.path("bare.elf")
        for strip in ("llvm-strip", "riscv64-unknown-elf-strip"):
            if subprocess.run(["sh", "-c", f"{strip} -o {bare} {self.path('plus.elf')}"], check=False,
                              stderr=subprocess.DEVNULL).returncode == 0:
                status, _, error = self.call("regions.py", bare, "parity", *words)
                self.expect("names: stripped", status == 1 and "has no symbols" in error, error)
                break

    def test_regions(self):
        """regions.py without a secret; lint.py of an output that is missing, and of another program's regions."""
        with open(self.path("plus.cpp"), "w", encoding="utf-8") as file:
            file.write(PLUS)
        self.write(nothing=b"", secret=b"a", cut=b"flowcheck-cut 1\nsecret 1\nbits 0\nend\n")
        for compiler in compilers():
            self.make("-B", f"COMPILER={compiler}", "plus.elf")
            elf, named = self.path("plus.elf"), [self.path("cut"), self.path("regions")]
            status, text, error = self.call("regions.py", elf, "parity")
            self.write(regions=text)
            self.expect(f"regions: bare by {compiler}", status == 0 and "no run was made" in error, error)
            words = ["learn", elf, self.path("nothing"), self.path("secret"), self.path("regions")]
            status, learnt, error = self.call("model/flowcheck.py", *words)
            self.expect(f"regions: learnt by {compiler}", status == 0 and '"outs":["x' in learnt, learnt + error)
            _, text, _ = self.call("lint.py", elf, *named)
            self.expect(f"regions: missing by {compiler}", "its code may write ra a0 " in text, text)
            _, text, error = self.call("regions.py", elf, "parity", "--code", "--secret", self.path("secret"))
            self.write(regions=text)
            _, text, _ = self.call("lint.py", elf, *named)
            self.expect(f"regions: whole by {compiler}", text == "nothing found\n", text)
            other = OTHER if compiler == "gcc" else PIN[0]
            _, text, _ = self.call("lint.py", other, CUT, self.path("regions"))
            self.expect(f"regions: another by {compiler}", "of another program" in text, text)

    def test_alone(self):
        """lint.py of a region file without a cut."""
        program = os.path.join(TOP, "examples/bit/program")
        self.write(comma='{"regions":[{"id":1,"enter":"0x10018","leave":"0x1001c"},]}\n')
        for words, expected, told in (
            ([program, "--regions", os.path.join(TOP, "examples/bit/regions")], 0, "nothing found"),
            ([OTHER, "--regions", os.path.join(TOP, "examples/bit/regions")], 1, "of another program"),
            ([program, "--regions", self.path("comma")], 3, "line 1: refused 3 regions json"),
            ([program], 2, "a region file by --regions"),
        ):
            status, text, error = self.call("lint.py", *words)
            self.expect(f"alone: {told}", status == expected and told in text + error, text + error)


if __name__ == "__main__":
    sys.exit(run_tests(ToolsTests, __doc__))
