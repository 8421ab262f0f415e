"""Tests of what is told of regions that are too narrow: 20 are made at random, each learnt of one random secret.

Call: trust_tests.py [--count N] [--flowcheck COMMAND]

Each guest has a function that writes into a table at places which its secret says, with a size, limits and a number of
rounds that are drawn. A region around its call is learnt of one secret, by regions.py; lint.py must say that random
secrets break it, and bound.py of how many it speaks. What regions.py then learns by the words that lint.py names no
random secret may break. The status is 1 where something is wrong."""
import argparse
import os
import random
import re
import shlex
import subprocess
import sys
import tempfile

sys.path.insert(0, os.path.dirname(os.path.abspath(__file__)))
sys.path.insert(1, os.path.join(os.path.dirname(os.path.dirname(os.path.abspath(__file__))), "guests"))

from expecting import Expectations

SOURCE = """
#include "flowcheck.h"
static volatile unsigned char table[{size}];
__attribute__((noinline)) static int note(const unsigned char *bytes)
{{
    int found = 0;
    for (int at = 0; at < {length}; at++)
        if (bytes[at] {compare} {limit}) {{
            table[(bytes[at] * {factor} + at) % {size}] {change};
            found++;
        }}
    return found {last};
}}
int main(void)
{{
    unsigned char bytes[{length}];
    read_secret(bytes, sizeof bytes);
    unsigned char answer = note(bytes);
    write_output(&answer, 1);
    return 0;
}}
"""


class Narrow(Expectations):
    """A guest in a folder, with a region that is learnt of one secret."""

    def test(self, seed):
        """Makes the guest and its region, and looks at what is told."""
        dice = random.Random(f"narrow {seed}")
        length, name = dice.randint(4, 16), f"narrow{seed}"
        source = SOURCE.format(
            size=dice.choice([16, 32, 64, 100]), length=length, compare=dice.choice(["<", ">"]),
            limit=dice.randint(60, 190), factor=dice.choice([1, 3, 5, 7]),
            change=dice.choice(["= 1", "+= 1", "^= bytes[at]"]),
            last=dice.choice(["> 3", "% 4", "& 7"]))
        self.write(**{f"{name}.c": source, f"{name}.secret": dice.randbytes(length), f"{name}.public": b""})
        elf, named = self.built(f"{name}.c", "gcc"), [self.path(f"{name}.{kind}") for kind in ("public", "secret")]
        inputs = ["--public", named[0], "--secret", named[1]]
        regions = self.path(f"{name}.regions")
        self.write(**{f"{name}.regions": self.call("regions.py", elf, "note", "--code", *inputs)[1]})
        status, told, error = self.call("lint.py", elf, "--regions", regions, *inputs)
        self.expect(f"told: {seed}", status == 1 and "random secrets break region 1" in told, told + error)
        _, text, error = self.call("bound.py", elf, *named, "--regions", regions, "--output", self.path("cut"))
        self.expect(f"bound: {seed}", re.search(r"those of \d+ of 200 random secrets", text), text + error)
        words = re.search(r"Learn it of these: (.*) >learnt.regions", told)
        command = shlex.split(words[1]) if words else ["false"]
        learnt = subprocess.run(command, cwd=self.folder, capture_output=True, check=False)
        self.write(**{f"{name}.learnt": learnt.stdout})
        status, told, error = self.call("lint.py", elf, "--regions", self.path(f"{name}.learnt"), *inputs)
        self.expect(f"learnt: {seed}", status == 0 and told == "nothing found\n", told + error)


def main():
    """Runs the tests."""
    parser = argparse.ArgumentParser(description=__doc__, formatter_class=argparse.RawDescriptionHelpFormatter)
    parser.add_argument("--count", type=int, default=20, metavar="N")
    parser.add_argument("--flowcheck", default=os.environ.get("FLOWCHECK"))
    words = parser.parse_args()
    if words.flowcheck:
        os.environ["FLOWCHECK"] = words.flowcheck
    with tempfile.TemporaryDirectory(prefix="trust-") as folder:
        tests = Narrow(folder)
        for seed in range(1, words.count + 1):
            tests.test(seed)
    print(", ".join(f"{count} {name}" for name, count in tests.counts.items()))
    print("\n".join(tests.wrongs) or "all right")
    return 1 if tests.wrongs else 0


if __name__ == "__main__":
    sys.exit(main())
