"""Tries regions around calls and loops, and writes a region file of those that lower the number of a run most.

Call: enclose.py PROG PUBLIC SECRET... [--most N] [-j N] [--output FILE] [--turns N] [--rules N] [--flowcheck COMMAND]

Candidates are the calls of each function and each loop inside which secret bits pass, but those with a guest call
inside. What all secrets need of a region is learnt and joined, and the run on the first secret is measured with it. The
candidate that lowers the number most is kept; then each of the others is tried beside it, and so on, until none lowers
it. Of several that lower it alike the one is kept with which `check` accepts most of the other secrets.

  --most N             at most so many measurements; 200 without it
  -j N                 so many at once; as many as there are processors without it
  --output FILE        the region file; `enclosed.regions` without it
  --turns N, --rules N as of `measure`
  --flowcheck COMMAND  the program; without it FLOWCHECK, else the one built or installed with this, else the model

Prints a table of what was kept, the commands that measure and check with it, and how many of 200 random secrets break
none of the regions. On a terminal it says meanwhile how
many measurements were made."""
import os
import shlex
import sys
import time

HERE = os.path.dirname(os.path.abspath(__file__))
sys.path[:0] = [os.path.join(HERE, "explain"), os.path.join(HERE, "model")]

from answering import Program, command_words
from document import Table
from enclosing import Search, candidates_of, passed_points
from region_finding import NoRegion
from region_joining import Learner, pretty_text
from run_facts import Inputs
from run_words import add_options, number, option_words, parser_of
from sampling import trust_of
from source_lines import Places
from tool import finish, look_at_place, program_of, told, wrapped, write_text
from verdicts import USUAL_TURNS

NONE = (
    "No call and no loop inside which secret bits pass can be a region: a guest call stands inside, or not every way\n"
    "passes one place behind it. __attribute__((noinline)) keeps a function from being put where it is called."
)
MODEL = [sys.executable, os.path.join(HERE, "model", "flowcheck.py")]


def arguments():
    """The words of the command line."""
    parser = parser_of(__doc__)
    parser.add_argument("public", metavar="PUBLIC")
    parser.add_argument("secrets", metavar="SECRET", nargs="+")
    parser.add_argument("--most", type=number(1), default=200)
    parser.add_argument("-j", dest="jobs", type=number(1, 1024), default=os.cpu_count())
    parser.add_argument("--output", default="enclosed.regions")
    add_options(parser, "turns", "rules")
    parser.set_defaults(turns=USUAL_TURNS)
    return parser.parse_intermixed_args()


def find(words):
    """The trials that were kept, how many candidates there were, and how many measurements were made."""
    program, asked = program_of(words.program), Program(words.flowcheck)
    if not program.functions:
        raise NoRegion("the program has no symbols, which say where its functions are: link it without -s")
    asked.words = asked.words or MODEL
    learner = Learner(asked, program, (words.program, words.public), words.turns)
    rules = option_words(words, "rules")
    search = Search(learner, words.secrets, rules, words.most, words.jobs)
    options = ["--turns", str(words.turns), *rules]
    passed = passed_points(asked, Inputs(words.program, words.public, None, options), words.secrets[0])
    candidates = candidates_of(program, Places(words.program, program), passed)
    try:
        return search.search(candidates), len(candidates), search.measured
    finally:
        search.progress.show("")


def table_of(kept, others):
    """The regions that were kept, with the numbers before and after each."""
    counts = [f"{trial.accepted} of {others}" if others else "-" for trial in kept]
    rows = [["none", "", "", str(kept[0].bits), counts[0]]]
    for before, after, count in zip(kept, kept[1:], counts[1:]):
        added = after.chosen[-1]
        rows.append([added.words, added.place, str(before.bits), str(after.bits), count])
    return Table(["Region", "Entered at", "Bits before", "Bits after", "Other secrets accepted"], rows)


def commands(words, bits):
    """The commands that measure and check with the region file."""
    options = ["--regions", words.output] + (["--turns", str(words.turns)] if words.turns != USUAL_TURNS else [])
    rules = option_words(words, "rules")
    run, first = [words.program, words.public], words.secrets[0]
    measure = shlex.join([*command_words(), "measure", *run, first, *options, *rules])
    return [measure + " >cut", shlex.join([*command_words(), "check", *run, "cut", str(bits), first, *options])]


def main():
    """Searches, writes the region file, and prints what was kept."""
    words, begin = arguments(), time.monotonic()
    look_at_place(words.output)
    try:
        kept, candidates, measured = find(words)
    except NoRegion as fault:
        return told(str(fault), 1)
    seconds = time.monotonic() - begin
    print("\n".join(table_of(kept, len(words.secrets) - 1).text()))
    print(f"{candidates} candidates, {measured} measurements, {seconds:.1f} seconds")
    if len(kept) == 1:
        print("No region lowers the number." if candidates else NONE)
        return 0
    write_text(words.output, pretty_text(kept[-1].regions))
    print(f"The regions are in {words.output}:")
    for line in commands(words, kept[-1].bits):
        print("    " + line)
    options = ["--regions", words.output, "--turns", str(words.turns)]
    inputs = Inputs(words.program, words.public, words.secrets[0], options)
    trust = trust_of(Program(words.flowcheck), inputs, program_of(words.program))
    print(wrapped([f"{trust.kept():,} of {len(trust.secrets):,} random secrets break none.", *trust.sentences()]))
    return 0


if __name__ == "__main__":
    finish(main)
