"""Finds in a cut and a region file what their exact formats take in silence and nobody means, or why they are refused.

Call: lint.py PROG [CUT] [REGIONS] [--regions FILE] [--public FILE] [--secret FILE]... [--turns N] [--quiet]

Without a cut it looks at the region file that --regions names, and at the runs on the secrets.

  --regions FILE the region file, as REGIONS
  --secret FILE  a secret; may be given more than once. The guest is run on each, by the model: how much of it the guest
                 reads is looked at, and which points of the cut no run passes; with regions, how many of 200 random
                 secrets of the same length break each is said too
  --public FILE  the public input of these runs; without it, none
  --turns N      the turns within which these runs must exit; 1000000 without it
  --quiet        print findings alone, on standard error, and leave out runs of more than 200,000 turns
  --rules N, --cut N   as of `measure`, so that its options can be handed on

It prints a line for each finding, with a line of the file. The status is 1 where there is one, and 3 where a file is
refused or cannot be read; of a refused cut or region file the line is shown with a caret below it, and what was
expected."""
import argparse
import os
import sys

HERE = os.path.dirname(os.path.abspath(__file__))
sys.path[:0] = [os.path.join(HERE, "explain"), os.path.join(HERE, "model")]

from answering import Program
from cuts import Cut, read_cut, read_regions
from faults_of_text import cut_text_fault, regions_text_fault
from linting import Lint
from misleading import of_number, of_passed, of_reads, of_trust
from noted_run import MOST_TURNS
from run_facts import Inputs, read
from run_words import TURNS
from running import run_by_model
from tool import finish, program_of
from verdicts import USUAL_TURNS


def arguments():
    """The words of the command line."""
    parser = argparse.ArgumentParser(description=__doc__, formatter_class=argparse.RawDescriptionHelpFormatter,
                                     allow_abbrev=False)
    parser.add_argument("program", metavar="PROG")
    parser.add_argument("cut_name", metavar="CUT", nargs="?")
    parser.add_argument("regions_name", metavar="REGIONS", nargs="?")
    parser.add_argument("--regions", metavar="FILE")
    for name in ("--rules", "--cut"):
        parser.add_argument(name, metavar="N", help=argparse.SUPPRESS)
    parser.add_argument("--public", metavar="FILE", default=os.devnull)
    parser.add_argument("--secret", metavar="FILE", action="append", default=[])
    parser.add_argument("--turns", metavar="N", type=TURNS, default=USUAL_TURNS)
    parser.add_argument("--quiet", action="store_true")
    words = parser.parse_intermixed_args()
    words.regions = words.regions_name or words.regions
    if not words.cut_name and not words.secret and not words.regions:
        parser.error("name a cut, a region file by --regions, or a secret by --secret")
    return words


def refusals_of(words):
    """The lines that say why the cut or the region file is refused."""
    named = (words.cut_name, cut_text_fault), (words.regions, regions_text_fault)
    faults = [(name, fault_of(read(name))) for name, fault_of in named if name]
    return [line for name, fault in faults if fault for line in fault.lines(name)]


def found_by_runs(words, image, cut, regions):
    """What the runs on the secrets show."""
    passed, found = set(), []
    limit = min(words.turns, MOST_TURNS) if words.quiet else words.turns
    for secret in words.secret:
        run = run_by_model(image, read(words.public), read(secret), regions, limit, passed)
        if run.status is None and words.quiet:
            return found
        found += of_reads(*run.secret, secret)
        found += [f"The run on {secret} has no status: {run.reason}."] if run.status is None else []
    if words.secret and cut:
        found += of_passed(cut, passed, len(words.secret)) if cut.points else of_number(cut.bits)
    return found


def found_by_random(words, program):
    """What random secrets show of the regions."""
    options = ["--regions", words.regions, "--turns", str(words.turns)]
    return of_trust(Program(), Inputs(words.program, words.public, words.secret[0], options), program)


def main():
    """Prints the findings."""
    words = arguments()
    program, refusals = program_of(words.program), refusals_of(words)
    if refusals:
        print("\n".join(refusals))
        return 3
    cut = read_cut(read(words.cut_name)) if words.cut_name else None
    regions = read_regions(read(words.regions)) if words.regions else None
    findings = Lint(program, cut or Cut(0), regions).all()
    findings += found_by_runs(words, program.image, cut, regions or [])
    findings += found_by_random(words, program) if regions and words.secret else []
    if findings or not words.quiet:
        print("\n".join(findings) or "nothing found", file=sys.stderr if words.quiet else sys.stdout)
    return 1 if findings else 0


if __name__ == "__main__":
    finish(main)
