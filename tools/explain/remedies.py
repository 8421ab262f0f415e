"""What lowers a number, by what makes it so high: each remedy with two lines of C, which `docs/GUIDE.md` has too."""
from document import Commands, Words


class Remedy:
    """What to change: its name, when it is of use, and two lines of C."""

    def __init__(self, name, when, *lines):
        self.name, self.when, self.lines = name, when, lines

    def blocks(self):
        """The remedy as blocks of a page."""
        return [Words(f"{self.name}: {self.when}", head=self.name), Commands(self.lines, "remedy")]


REGION = Remedy(
    "A region around the call",
    "only what the function gives back counts, and not what it does with the secret. tools/regions.py writes it.",
    "int answer = decide(bytes);       /* python3 tools/regions.py PROG decide --public FILE --secret FILE */",
    "write_output(&answer, 1);         /* of the 32 bits of an int 8 are seen */",
)
NOINLINE = Remedy(
    "noinline",
    "a region wants a call, and a compiler puts a small function where it is called.",
    "__attribute__((noinline)) static int decide(const unsigned char *bytes);",
    "int answer = decide(bytes);       /* now this is a call */",
)
MASK = Remedy(
    "A mask behind a region",
    "each bit of the result of a region counts, also one that is always 0; the mask leaves those that are needed.",
    "int answer = decide(bytes) & 3;   /* two bits cross, whatever decide does */",
    "write_output(&answer, 1);",
)
BARRIER = Remedy(
    "A barrier that decides once",
    "collect what is compared, and branch behind the loop; past the empty statement no compiler can decide earlier.",
    "difference |= typed[place] ^ bytes[place];       /* in the loop, which goes on to its end */",
    '__asm__ volatile("" : "+r"(difference));         /* behind it: one decision on difference follows */',
)
UNSIGNED = Remedy(
    "unsigned char",
    "the sign of a signed char or a short fills all bits above it, and each of them counts then.",
    "const unsigned char *bytes = secret;             /* and not signed char */",
    "int high = bytes[0] >> 6;                        /* two bits */",
)
FIXED = Remedy(
    "Fixed lengths instead of lines",
    "where a line ends is a decision for each byte, and its length is an argument of the call that writes it.",
    "unsigned char line[SIZE] = {0};                  /* filled up with zeros, whatever is in it */",
    "write_output(line, sizeof line);                 /* and not as many bytes as were found */",
)
CONSTANT = Remedy(
    "Constant work",
    "an address that depends on the secret counts as it is; go through the whole table instead.",
    "for (unsigned place = 0; place < sizeof table; place++)",
    "    value |= table[place] & (((place ^ index) - 1) >> 8);   /* all ones where place is index, else 0 */",
)
APART = Remedy(
    "Reads apart",
    "all bytes of one read are one point, which the cut has with all of its bits or not at all.",
    "read_secret(&level, 1);                          /* a point of its own */",
    "read_secret(bytes, 3);",
)
ALL = [REGION, NOINLINE, MASK, BARRIER, UNSIGNED, FIXED, CONSTANT, APART]
BY_KIND = {
    "sign": [UNSIGNED],
    "length": [FIXED],
    "address": [CONSTANT, REGION, NOINLINE],
    "decision": [BARRIER, FIXED, REGION, NOINLINE],
    "region": [MASK],
    "grown": [REGION, NOINLINE, MASK],
    "several": [APART],
}


def remedies_for(kinds):
    """The remedies for what was found of a run, which are keys of BY_KIND."""
    chosen = []
    for kind, remedies in BY_KIND.items():
        if kind in kinds:
            chosen += [remedy for remedy in remedies if remedy not in chosen]
    return chosen
