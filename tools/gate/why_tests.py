"""Tests of what a page says of why its number is what it is, of the remedies, and of two measurements side by side.

Call: why_tests.py

For each remedy there is a guest without it and one with it, which has its two lines of C: the page of the first must
name the remedy, and the number of the second must be lower. The status is 1 where something is wrong."""
import json
import os
import re
import sys

TOOLS = os.path.dirname(os.path.dirname(os.path.abspath(__file__)))
sys.path[:0] = [os.path.join(TOOLS, name) for name in ("explain", "model")]

from answering import Program
from expecting import PIN, TOP, Expectations, compilers, run_tests
from remedies import ALL, APART, BARRIER, CONSTANT, FIXED, MASK, NOINLINE, REGION, UNSIGNED

BEGIN = '#include "flowcheck.h"\nenum { SIZE = 8 };\n'
SORT = BEGIN + """__attribute__((%s)) static int decide(const unsigned char *bytes)
{
    unsigned char sorted[SIZE];
    for (int place = 0; place < SIZE; place++) {
        int free = place;
        for (; free > 0 && sorted[free - 1] > bytes[place]; free--)
            sorted[free] = sorted[free - 1];
        sorted[free] = bytes[place];
    }
    return sorted[SIZE / 2];
}
int main(void)
{
    unsigned char bytes[SIZE];
    read_secret(bytes, SIZE);
    int answer = decide(bytes)%s;
    write_output(&answer, 1);
    return 0;
}
"""
HIGH = BEGIN + """int main(void)
{
    unsigned char secret[1];
    read_secret(secret, 1);
    const %s char *bytes = (const void *)secret;
    int high = bytes[0] >> 6;
    write_output(&high, 1);
    return 0;
}
"""
EARLY = BEGIN + """int main(void)
{
    unsigned char bytes[SIZE], typed[SIZE], difference = 0;
    read_public(typed, SIZE);
    read_secret(bytes, SIZE);
    for (int place = 0; place < SIZE; place++)
        %s
    __asm__ volatile("" : "+r"(difference));
    if (difference)
        return 1;
    write_output("welcome\\n", 8);
    return 0;
}
"""
STARS = BEGIN + """int main(void)
{
    unsigned char bytes[SIZE], line[SIZE] = {0};
    read_secret(bytes, SIZE);
    unsigned length = 0;
    while (length < SIZE && bytes[length] != '\\n')
        length++;
    for (unsigned place = 0; place < length; place++)
        line[place] = '*';
    write_output(line, length);
    return 0;
}
"""
FILLED = BEGIN + """int main(void)
{
    unsigned char bytes[SIZE], line[SIZE] = {0};
    read_secret(bytes, SIZE);
    line[0] = bytes[0] & 31;
    write_output(line, sizeof line);
    return 0;
}
"""
TABLE = BEGIN + """static const unsigned char table[256] = {3, 1, 2, 0, 1};
int main(void)
{
    unsigned char index;
    unsigned value = 0;
    read_secret(&index, 1);
    %s
    write_output(&value, 1);
    return 0;
}
"""
LEVEL = BEGIN + """static void show(unsigned char level_of[1], const unsigned char *bytes)
{
    for (int step = 0; step < 40; step++)
        if (*(volatile unsigned char *)level_of > 5 * step)
            write_output("x", 1);
    exit_with((bytes[0] ^ bytes[1] ^ bytes[2]) & 1);
}
int main(void)
{
    %s
    return 0;
}
"""
CASES = [
    (UNSIGNED, HIGH % "signed", HIGH % "unsigned", b"\xd5", None),
    (BARRIER, EARLY % "if (typed[place] != bytes[place])\n            return 1;",
     EARLY % "difference |= typed[place] ^ bytes[place];", b"tortilla", None),
    (FIXED, STARS, FILLED, b"Edsger\n\n", None),
    (CONSTANT, TABLE % "value = table[index];", TABLE % "\n    ".join(CONSTANT.lines), b"\x02", None),
    (APART, LEVEL % "unsigned char all[4]; read_secret(all, 4); show(all, all + 1);",
     LEVEL % ("unsigned char level, bytes[3]; " + "\n    ".join(APART.lines) + " show(&level, bytes);"), b"abcd", None),
    (NOINLINE, SORT % ("always_inline", ""), SORT % ("noinline", ""), b"tortilla", "decide"),
    (REGION, SORT % ("noinline", ""), SORT % ("noinline", ""), b"tortilla", "decide"),
    (MASK, SORT % ("noinline", ""), SORT % ("noinline", " & 3"), b"tortilla", "decide"),
]


class WhyTests(Expectations):
    """The tests."""

    def bits(self, elf, *more):
        """The measured number."""
        status, text = Program().answer(["report", elf, self.path("public"), self.path("secret"), *more, "--json"])
        if status:
            raise SystemExit(f"{elf}: {text}")
        return json.loads(text)["bits"]

    def region(self, elf, function):
        """The options with a region around a function."""
        words = [elf, function, "--public", self.path("public"), "--secret", self.path("secret")]
        status, text, error = self.call("regions.py", *words)
        self.expect(f"regions: {function}", status == 0, error)
        self.write(regions=text)
        return ["--regions", self.path("regions")]

    def test_remedies(self):
        """Each remedy is named where it is wanted, and lowers the number."""
        for remedy, before, after, secret, function in CASES:
            self.write(before_c=before, after_c=after, secret=secret, public=b"tortilla")
            for compiler in compilers():
                what = f"{remedy.name} by {compiler}"
                elfs = self.built("before.c", compiler), self.built("after.c", compiler)
                options = self.region(elfs[0], function) if remedy is MASK else []
                many = self.bits(elfs[0], *options)
                words = [elfs[0], self.path("public"), self.path("secret"), *options, "--text"]
                _, text, error = self.call("explain.py", *words)
                self.expect(f"named: {what}", f"\n{remedy.name}: " in text, text + error)
                self.expect(f"reasons: {what}", self.is_told(text, elfs[0], many), text)
                few = self.bits(elfs[1], *(self.region(elfs[1], function) if function else []))
                self.expect(f"lower: {what}", few < many, f"{many} and then {few}")

    @staticmethod
    def is_told(text, elf, bits):
        """Whether a page whose cut is at a read says why, with what shows as many bits, and one elsewhere does not."""
        at_read = re.search(r"0x[0-9a-f]{8} ecall +in ", text) is not None
        part = text[text.find("Here they are seen") :].split("\n\n")
        rows = [line.split()[0] for line in part[1].split("\n")[1:] if line[:1].isdigit()] if at_read else []
        is_told = "The cut is where the secret is read" in text
        return at_read == is_told and (not at_read or sum(map(int, rows)) == bits)

    def test_ways(self):
        """The way of the bits, with the lines."""
        for compiler in compilers():
            self.write(way_c=TABLE % "value = table[index];", secret=b"\x02", public=b"")
            words = [self.built("way.c", compiler), self.path("public"), self.path("secret"), "--text"]
            text = " ".join(self.call("explain.py", *words)[1].split())
            told = "used as an address", "read at way.c:8", "used as an address at way.c:9"
            self.expect(f"ways: {compiler}", all(words in text for words in told), text)

    def test_above(self):
        """A number above what the output can hold is told, and one below is not."""
        endings = "if (typed[place] != bytes[place])\n            exit_with(%s);"
        for compiler in compilers()[:1]:
            self.write(many_c=EARLY % (endings % "place"), one_c=TABLE % "value = index;")
            self.write(secret=b"tortilla", public=b"")
            for name in ("many.c", "one.c"):
                words = [self.built(name, compiler), self.path("public"), self.path("secret")]
                status, text, _ = self.call("explain.py", *words, "--text")
                is_above = self.bits_in(text) > 8 * (self.wrote(text) + 1)
                is_told = "above what the output can hold" in text
                self.expect(f"above: {name}", status == 0 and is_above == is_told, text)

    @staticmethod
    def bits_in(text):
        """The number of a page."""
        return int(text.split()[0])

    @staticmethod
    def wrote(text):
        """How many bytes were written."""
        return int(re.search(r"It wrote ([0-9,]+) byte", text)[1].replace(",", ""))

    def test_against(self):
        """Two measurements, by the cut and by the page of the earlier one."""
        cut = os.path.join(TOP, "examples/guests/cut")
        self.write(other="flowcheck-cut 1\nsecret 4\nbits 9\npoint 0 0x00070000 rs 1*0x000001ff rest 0x000001ff\nend\n")
        self.call("explain.py", *PIN, "--output", self.path("earlier.html"))
        for name, told in ((cut, "has 3 bits, this one 3 bits: as many"), (self.path("earlier.html"), "as many"),
                           (self.path("other"), "has 9 bits, this one 3 bits: 6 bits fewer")):
            status, text, error = self.call("explain.py", *PIN, "--against", name, "--text")
            text = " ".join(text.split())
            self.expect(f"against: {name}", status == 0 and told in text and "2 2 0x000100f4 de" in text or (
                name == self.path("other") and "another program" in text and told in text), text + error)
        status, _, error = self.call("explain.py", *PIN, "--against", PIN[1], "--text")
        self.expect("against: no cut", status == 3 and "refused 3 cut" in error, error)

    def test_guide(self):
        """The guide has the lines of each remedy."""
        with open(os.path.join(TOP, "docs/GUIDE.md"), encoding="utf-8") as file:
            guide = file.read()
        for remedy in ALL:
            lines = "".join(f"    {line}\n" for line in remedy.lines)
            self.expect(f"guide: {remedy.name}", f"**{remedy.name}**" in guide and lines in guide)


if __name__ == "__main__":
    sys.exit(run_tests(WhyTests, __doc__))
