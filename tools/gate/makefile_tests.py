"""Tests of the makefile for guests, examples/guests/Makefile.

Call: makefile_tests.py

The status is 1 where something is wrong."""
import os
import shutil
import sys

sys.path.insert(0, os.path.dirname(os.path.abspath(__file__)))

from expecting import TOP, Expectations, compilers, run_tests

BIT = '#include "flowcheck.h"\n%s\nint main(void) { unsigned char s; read_secret(&s, 1); return %s; }\n'
PLUS = """
#include "flowcheck.h"
#include "own.h"
namespace box {
struct Lock { unsigned char key; virtual bool opens(unsigned char tried) const; };
__attribute__((noinline)) bool Lock::opens(unsigned char tried) const { return parity(tried ^ key); }
}
int main() { box::Lock lock; lock.key = 3; unsigned char s[2]; read_secret(s, 2); return lock.opens(s[0]); }
"""
UTIL = """
#include "flowcheck.h"
#include "own.h"
int parity(int x) { int p = 0; for (int i = 0; i < 8; i++) p ^= x >> i & 1; return p; }
"""
OWN = '#ifdef __cplusplus\nextern "C"\n#endif\nint parity(int x);\n'
OF_ONE_RUN = "note: the number is of this one run. "


class MakefileTests(Expectations):
    """The tests."""

    def made(self, what, words, status, *told, folder=None):
        """make must end with success or not, and say some words."""
        done, output, error = self.make(*words, folder=folder)
        is_told = all(words in output + error for words in told)
        self.expect(f"{what}: {' '.join(words)}", (done == 0) == (status == 0) and is_told, output + error)

    def put(self, folder, **files):
        """Writes files into a folder of the folder; its path."""
        os.makedirs(self.path(folder), exist_ok=True)
        for name, data in files.items():
            with open(os.path.join(self.path(folder), name.replace("__", " ").replace("_", ".")), "w") as file:
                file.write(data)
        return self.path(folder)

    def test_numbers(self):
        """A page and a cut are made where there is a number, and make fails where there is none."""
        wild = "static int wild(int s) { return *(volatile int *)(s & 4); }", "wild(s)"
        folder = self.put("numbers", mine_c=BIT % ("", "s & 1"), wild_c=BIT % wild)
        for name in ("mine", "wild"):
            self.put("numbers", **{f"{name}_secret": "a", f"{name}_public": ""})
        for target in ("html", "cut", "report"):
            self.made("numbers", [f"mine.{target}"], 0, "1", folder=folder)
            told = "No number" if target == "html" else "load-outside"
            self.made("numbers", [f"wild.{target}"], 1, told, folder=folder)
        self.expect("numbers: page of a refusal", os.path.exists(os.path.join(folder, "wild.html")))
        self.made("numbers", ["mine.html", "SECRET=missing"], 1, "missing: No such file", folder=folder)
        self.made("numbers", ["mine.report", "OPTIONS=--turns 5"], 1, "refused 4 turns 5", folder=folder)

    def test_notes(self):
        """What may mislead is told, and where nothing does only that a measured number is of one run."""
        folder = self.put("notes", mine_c=BIT % ("", "s & 1"), mine_secret="a", mine_public="")
        self.put("notes", none_c=BIT % ("", "0"), none_secret="abc", none_public="")
        for target in ("cut", "report", "html"):
            self.made("notes", [f"none.{target}"], 0, "read 1 of 3 bytes", "number is 0", folder=folder)
            _, _, error = self.make(f"mine.{target}", folder=folder)
            is_told = error.startswith(OF_ONE_RUN) and error.count("\n") == 1
            self.expect(f"notes: mine.{target}", is_told if target == "cut" else error == "", error)

    def test_compilers(self):
        """A compiler that is not known, or not there, is told in a clear sentence."""
        folder = self.put("compilers", mine_c=BIT % ("", "s & 1"))
        self.made("compilers", ["COMPILER=tcc", "mine.elf"], 1, "COMPILER=tcc is no compiler that", folder=folder)
        words = ["gcc=no-such-gcc", "mine.elf"]
        self.made("compilers", words, 1, "there is no no-such-gcc: apt-get install", folder=folder)

    def test_sources(self):
        """Several sources, in C and in C++, with headers of their own, which are looked at when they change."""
        folder = self.put("sources", mine_cpp=PLUS, util_c=UTIL, own_h=OWN, mine_secret="ab", mine_public="")
        for compiler in compilers():
            words = ["-B", f"COMPILER={compiler}", "MORE=util.c", "mine.report"]
            self.made("sources", words, 0, "bits 1 ", folder=folder)
        self.put("sources", plain_c=BIT % ('#include "number.h"', "s & NUMBER"), number_h="enum { NUMBER = 1 };\n",
                 plain_secret="a", plain_public="")
        self.made("sources", ["plain.report"], 0, "bits 1 ", folder=folder)
        self.put("sources", number_h="enum { NUMBER = 3 };\n")
        os.utime(os.path.join(folder, "number.h"), (2**31, 2**31))
        self.made("sources", ["plain.report"], 0, "bits 2 ", folder=folder)

    def test_blanks(self):
        """Blanks in the name of a guest, of its folder and of the folder of the repository."""
        folder = self.put("with blank", my__guest_c=BIT % ("", "s & 1"), my__guest_secret="a", my__guest_public="")
        for target in ("report", "cut", "html"):
            self.made("blanks", [f"my guest.{target}"], 0, "1", folder=folder)
        ignored = shutil.ignore_patterns("__pycache__", "*.elf")
        for name in ("examples", "tools"):
            shutil.copytree(os.path.join(TOP, name), os.path.join(folder, name), ignore=ignored)
        makefile = os.path.join(folder, "examples/guests/Makefile")
        done, output, error = self.make("my guest.html", folder=folder, makefile=makefile)
        self.expect("blanks: repository", done == 0, output + error)
        story = os.path.join(folder, "examples/password")
        done, output, error = self.make("early.report", folder=story, makefile=os.path.join(story, "Makefile"))
        self.expect("blanks: story", done == 0 and output.startswith("bits 5 "), output + error)


if __name__ == "__main__":
    sys.exit(run_tests(MakefileTests, __doc__))
