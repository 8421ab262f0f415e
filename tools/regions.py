"""Writes a region file around calls of functions and lines of sources, on standard output.

Call: regions.py PROG NAME... [--secret FILE]... [--random N] [--length N] [--public FILE] [--turns N] [--code]
                 [--flowcheck COMMAND]
      regions.py PROG --from FILE [--secret FILE]... and the other options

  NAME                 a function, each call of which from elsewhere becomes a region: entered at the call, left at the
                       instruction behind it; or FILE:LINE or FILE:FIRST-LAST, lines of a source whose code becomes one
  --from FILE          a region file: its regions are learnt again
  --secret FILE        a secret; may be given more than once. Without one the regions are found and declare nothing but,
                       with --code, registers: `flowcheck learn` takes such a file
  --random N           of N secrets too that are drawn at random, of the length of the first secret or of --length;
                       those whose runs do not exit are passed over. With 200 they are those by which the pages,
                       bound.py, enclose.py and lint.py look whether a region is broken
  --public FILE        the public input; without it, none
  --turns N            the limit of turns of a run
  --code               declare also the registers that the code inside may write, though no run did: behind a call
                       those that the calling convention does not keep are outputs
  --flowcheck COMMAND  the program; without it FLOWCHECK, else the one built or installed with this, else the model

What is declared is the least that the runs on these secrets need together, as `learn` says of each: registers that they
write and give back are kept, others are outputs, and bytes that they write are ranges. Where that makes more than 64
ranges, the nearest are joined. Standard error says what each secret adds. Give secrets that take different ways: of a
run on another way nothing is known, and it may break the region."""
import os
import sys
import tempfile

HERE = os.path.dirname(os.path.abspath(__file__))
sys.path[:0] = [os.path.join(HERE, "explain"), os.path.join(HERE, "model")]

from answering import Program
from region_finding import Calls, NoRegion, around_bounds, enclosures_of
from region_joining import Declaration, Learner, learn_each, pretty_text
from run_facts import read, regions_of
from run_words import MOST_LENGTH, TURNS, number, parser_of
from sampling import drawn
from source_lines import Places
from tool import counted, finish, program_of, told
from verdicts import USUAL_TURNS

NO_RUN = "no run was made: --secret names a secret, and what a run on it writes in the regions is declared"


def arguments():
    """The words of the command line."""
    parser = parser_of(__doc__)
    parser.add_argument("names", metavar="NAME", nargs="*")
    parser.add_argument("--from", dest="file", metavar="FILE")
    parser.add_argument("--public", default=os.devnull)
    parser.add_argument("--secret", action="append", default=[])
    parser.add_argument("--random", type=number(1), default=0, metavar="N")
    parser.add_argument("--length", type=number(0, MOST_LENGTH), metavar="N")
    parser.add_argument("--turns", type=TURNS, default=USUAL_TURNS, metavar="N")
    parser.add_argument("--code", action="store_true")
    words = parser.parse_intermixed_args()
    if bool(words.names) == bool(words.file):
        parser.error("name functions or lines, or a region file by --from")
    if words.random and words.length is None and not words.secret:
        parser.error("--random wants --length or a secret")
    return words


def note(text):
    """Says something on standard error."""
    print(text, file=sys.stderr)


def random_secrets(words, folder):
    """The names of files of random secrets."""
    known = [read(name) for name in words.secret]
    length = words.length if words.length is not None else len(known[0]) if known else 0
    named = []
    for index, secret in enumerate(drawn(words.random, length, known, read(words.public)) if words.random else []):
        named.append(os.path.join(folder, f"random {index + 1}"))
        with open(named[-1], "wb") as file:
            file.write(secret)
    return named


def learn_all(learner, declarations, secrets, randoms):
    """Learns what the runs on all secrets need, and says what each adds."""
    for secret, region, added in learn_each(learner, declarations, [*secrets, *randoms], randoms):
        if added:
            note(f"{os.path.basename(secret)}: region {region.number}: {added}")


def tell(number, enclosure, declaration, places):
    """Says what a region is."""
    where = f"{enclosure.words}, {places.at(enclosure.enter).text()}"
    if declaration.is_empty():
        note(f"region {number}: {where}; nothing is declared, since no run writes anything in it")
        return
    outs, stored = counted(len(declaration.outs), "register"), counted(len(declaration.bytes), "byte")
    counts = f"{outs} out, {len(declaration.keep)} kept, {stored}"
    joined = f"; more than 64 ranges, the nearest are joined over {declaration.filled} bytes that no run writes"
    note(f"region {number}: {where}; {counts}{joined if declaration.filled else ''}")


def main():
    """Finds the regions, and writes their file."""
    words = arguments()
    try:
        program = program_of(words.program)
        places = Places(words.program, program)
        calls = Calls(program)
        found = [around_bounds(calls, region) for region in regions_of(words.file)] if words.file else None
        enclosures = found or enclosures_of(program, places, words.names)
        declarations = [Declaration(one.bare(number)) for number, one in enumerate(enclosures, 1)]
        learner = Learner(Program(words.flowcheck), program, (words.program, words.public), words.turns)
        with tempfile.TemporaryDirectory() as folder:
            learn_all(learner, declarations, words.secret, random_secrets(words, folder))
        is_run = words.secret or words.random
        for enclosure, declaration in zip(enclosures, declarations):
            if words.code and not (is_run and declaration.is_empty()):
                declaration.add_code(*enclosure.may_write(calls), enclosure.is_call)
        text = pretty_text([declaration.whole() for declaration in declarations])
    except NoRegion as fault:
        return told(str(fault), 1)
    if not is_run:
        note(NO_RUN)
    for place, (enclosure, declaration) in enumerate(zip(enclosures, declarations), 1):
        tell(place, enclosure, declaration, places)
    sys.stdout.write(text)
    return 0


if __name__ == "__main__":
    finish(main)
