"""Explains a run on one page: how many bits of its secret the output can have given away, and where they pass.

Call: explain.py PROG PUBLIC SECRET... [--turns N] [--regions FILE] [--rules N] [--against CUT]
      explain.py PROG PUBLIC --check CUT BUDGET SECRET [--turns N] [--regions FILE]
      explain.py PROG PUBLIC --taint CUT BUDGET SECRET [--turns N] [--regions FILE] [--rules N]
      explain.py PROG PUBLIC --bound CUT BUDGET [SECRET] [--any-public] [--turns N] [--regions FILE] [--rules N]
                 [--paths N]

The first form measures a run, and says why its number is what it is and what would lower it; or it measures several
together, with one cut, and says what crosses at it in each. The second says of a secret that `check` rejects where and
why, and the third of one that is unclear to `taint`, with the lines of a cut that would clear it. The fourth has all
outputs that `bound` lists, with the states at which bits are chosen where there are few, and beside them what is
measured of a secret that is named; with --any-public it is of any public input of the length of PUBLIC. Each writes one
HTML file, which needs nothing beside it, or with --text a text for a terminal.

  --seconds N          of measured secrets: looks for the least bound of all outputs too, in so many seconds, as best.py
                       does; its cut is written beside the page, as NAME.bound.cut. Without it none is looked for
  --against CUT        of one secret: this measurement beside an earlier one, of which there is a cut or a page
  --output FILE        the file of the page; without it `explain.html`, and `-` is standard output
  --text               a text on standard output
  --source FOLDER      where sources are that have moved; may be given more than once
  --flowcheck COMMAND  the program; without it FLOWCHECK, else the one built or installed with this, else the model

The status is 0 where the page is made, 1 where there is no number, 2 where the words are no command line, and 3 where a
file cannot be used. Python 3 is enough for addresses and functions; lines of sources want -g, and llvm-symbolizer or
addr2line for RISC-V."""
import argparse
import os
import sys

HERE = os.path.dirname(os.path.abspath(__file__))
sys.path[:0] = [os.path.join(HERE, "explain"), os.path.join(HERE, "model")]

from against import Earlier
from answering import Program
from best_bound import BestBound
from best_words import keep_files
from bound_page import best_section, bound_page, bounded_of, pointer_section
from bounding import NoBound
from document import html_page, text_page
from many_page import many_page
from many_runs import ManyRuns
from measured_page import NO_NUMBER, measured_page, refused_page
from misleading import TITLE, of_cut, of_run, of_trust, program_section, section_of
from rejection import Rejection
from rejection_page import rejection_page
from run_facts import Inputs, NoMeasure, RunFacts, read, regions_of
from run_words import BUDGET, add_options, number, option_words, parser_of
from source_lines import Places
from taint_page import taint_page
from tainting import Tainting
from tool import finish, look_at_place, program_of, told, write_text

OPTIONS = ("turns", "regions", "rules", "paths")


def arguments():
    """The words of the command line."""
    parser = parser_of(__doc__)
    parser.add_argument("public", metavar="PUBLIC")
    parser.add_argument("secret", metavar="SECRET", nargs="*")
    for name in ("--check", "--taint"):
        parser.add_argument(name, nargs=3, metavar=("CUT", "BUDGET", "SECRET"))
    parser.add_argument("--bound", nargs=2, metavar=("CUT", "BUDGET"))
    add_options(parser, *OPTIONS)
    parser.add_argument("--any-public", action="store_true")
    parser.add_argument("--seconds", type=number(0, kind=float), default=0, metavar="N")
    parser.add_argument("--against", metavar="CUT")
    parser.add_argument("--output", default="explain.html")
    parser.add_argument("--text", action="store_true")
    parser.add_argument("--source", action="append", default=[])
    words = parser.parse_intermixed_args()
    asked = [given for given in (words.check, words.taint, words.bound) if given]
    if len(asked) + bool(words.secret and not words.bound) != 1 or words.bound and len(words.secret) > 1:
        parser.error("name secrets, or --check or --taint CUT BUDGET SECRET, or --bound CUT BUDGET [SECRET]")
    try:
        for given in asked:
            BUDGET(given[1])
    except argparse.ArgumentTypeError as fault:
        parser.error(f"argument BUDGET: {fault}")
    if words.against and (len(words.secret) != 1 or words.bound):
        parser.error("--against is an option of the measurement of one secret")
    for name in ("paths", "any_public"):
        if getattr(words, name) and not words.bound:
            parser.error(f"--{name.replace('_', '-')} is an option of --bound")
    if words.seconds and asked:
        parser.error("--seconds is an option of measured secrets")
    if words.check and words.rules:
        parser.error("--rules is no option of a check")
    return words


def page(words):
    """The title and the sections of the page."""
    program = program_of(words.program)
    title, sections = page_of(words, program)
    sections = [section for section in sections if section]
    if words.secret and words.seconds and not title.startswith(NO_NUMBER):
        sections.insert(1, searched_section(words, program))
    else:
        sections.append(pointer_section(words))
    return title, [*sections, program_section(words.program, program.file)]


def searched_section(words, program):
    """The least bound of all outputs that is found within the seconds."""
    options = option_words(words, "regions", "turns")
    search = BestBound(Program(words.flowcheck), Inputs(words.program, words.public, None, options), program,
                       words.secret, len(read(words.secret[0])), False, words.seconds, lambda text: None)
    if search.search() is None:
        return pointer_section(words)
    name = os.path.splitext("explain" if words.text or words.output == "-" else words.output)[0]
    keep_files(search, f"{name}.bound")
    return best_section(search, f"{name}.bound")


def page_of(words, program):
    """The title and the sections of the page, but the one of the program; there may be None among these."""
    asked = Program(words.flowcheck)
    for name in [words.public, *words.secret]:
        read(name)
    regions_of(words.regions)
    places = Places(words.program, program, words.source)
    flat = option_words(words, *OPTIONS)
    if words.check or words.taint:
        cut, budget, secret = words.check or words.taint
        named = asked, Inputs(words.program, words.public, secret, flat), cut, budget, program
        seen = Tainting(*named) if words.taint else Rejection(*named)
        title, sections = (taint_page if words.taint else rejection_page)(seen, program, places)
        lockstep = None if words.taint else seen.lockstep
        notes = of_cut(program, seen.cut, seen.regions) + of_run(lockstep and lockstep.real, seen.cut, secret)
        notes += of_trust(asked, Inputs(words.program, words.public, secret, flat), program)
        return title, [*sections[:1], section_of(notes), *sections[1:]]
    if words.bound:
        bounded = bounded_of(asked, words, flat, program)
        title, sections = bound_page(bounded, program, places)
        notes = of_cut(program, bounded.cut, bounded.inputs.regions())
        notes += bounded.trust.sentences() if bounded.trust else []
        return title, [*sections[:1], section_of(notes), *sections[1:]]
    inputs = Inputs(words.program, words.public, words.secret[0], flat)
    try:
        if len(words.secret) > 1:
            notes = of_trust(asked, inputs, program)
            return many_page(ManyRuns(asked, inputs, words.secret, program), program, places, notes)
        earlier = Earlier(words.against) if words.against else None
        return measured_page(RunFacts(asked, inputs), program, places, earlier, of_trust(asked, inputs, program))
    except NoMeasure as refusal:
        return refused_page(str(refusal), inputs, program, places)


def told_of(sections):
    """Says on standard error what may mislead, since a page is not read at once."""
    for section in sections:
        if section.title == TITLE:
            told("\n".join(block.words for block in section.blocks), 0)


def main():
    """Writes the page."""
    words = arguments()
    if not words.text and words.output != "-":
        look_at_place(words.output)
    try:
        title, sections = page(words)
    except NoBound as refusal:
        return told(str(refusal), 1)
    if not words.text:
        told_of(sections)
    if words.text:
        sys.stdout.write(text_page(title, sections))
    elif words.output == "-":
        sys.stdout.write(html_page(title, sections))
    else:
        write_text(words.output, html_page(title, sections))
        print(f"{title}: {words.output}")
    return int(title.startswith(NO_NUMBER))


if __name__ == "__main__":
    finish(main)
