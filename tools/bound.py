"""Looks for a cut with which `bound` says all outputs that secrets of one length can give.

Call: bound.py PROG PUBLIC LENGTH|SECRET... [--any-public] [--regions FILE] [--turns N] [--rules N] [--paths N]
               [--rounds N] [--most N] [--output FILE] [--flowcheck COMMAND]

It begins with the cut of the secrets, as `measure` or `measure-all` writes it; or of a LENGTH in bytes with a cut that
has no point and skips each region of the file. Where `bound` is unclear at a point, the point gets a line, or what its
value is made of where that has fewer bits; where the budget is too small, it is raised. So it goes on until `bound`
answers, in at most so many rounds. Where the cut of the secrets comes to no answer with 1,024 walks, or to more bits
than were measured, it begins again without a point. Where neither comes to an answer, both go on with eight times as
many walks, until there are as many as are allowed.

  --any-public         of any public input of the length of PUBLIC, not of PUBLIC alone; `measure` takes PUBLIC
  --rounds N           at most so many calls of `bound` from a beginning; 100 without it
  --most N             fails, with status 4 and a line, where more than N outputs are found or no number is known
  --output FILE        the file of the cut; `bound.cut` without it
  --rules N            the table of mask rules; 3 without it
  --regions, --turns, --paths  as of `bound`
  --flowcheck COMMAND  the program; without it FLOWCHECK, else the one built or installed with this, else the model

Prints the rounds, then in words what is bounded, or why not and what to change. Where as many walks as are allowed are
too few, it names the decision at which most states part, and what keeps them apart. Where no region is listed and no
path stops, it speaks of all secrets; else of every secret whose run ends and breaks no region: then it says of how many
of 200 random secrets that is, and which regions the others break. On a terminal it says meanwhile which call of `bound`
it waits for. The status is 0 where it is bounded. best.py tries several ways, and regions too."""
import os
import sys

HERE = os.path.dirname(os.path.abspath(__file__))
sys.path[:0] = [os.path.join(HERE, "explain"), os.path.join(HERE, "model")]

from answering import Program
from bound_words import bounded_lines, least_count, unclear_lines
from bounding import SEARCH_RULES, Bounding, NoBound, found
from parting import Parting
from run_facts import Inputs
from run_words import add_options, length_of, look_at_secrets, number, option_words, parser_of, too_many
from sampling import trust_of
from source_lines import Places
from tool import finish, look_at_place, program_of, told, wrapped, write_text

OPTIONS = ("regions", "turns", "rules", "paths")


def arguments():
    """The words of the command line."""
    parser = parser_of(__doc__)
    parser.add_argument("public", metavar="PUBLIC")
    parser.add_argument("secrets", metavar="SECRET", nargs="+")
    add_options(parser, *OPTIONS)
    parser.set_defaults(rules=int(SEARCH_RULES))
    parser.add_argument("--any-public", action="store_true")
    parser.add_argument("--rounds", type=number(1), default=100)
    parser.add_argument("--most", type=number(1), metavar="N")
    parser.add_argument("--output", default="bound.cut")
    return parser.parse_intermixed_args()


def find(bounding, words, tell):
    """The answer with its walk, and the number that was measured."""
    length = length_of(words.secrets)
    measured = length is None
    beginnings = bounding.beginnings(words.secrets) if measured else [("without a point", bounding.empty(length))]
    bits = beginnings[0][1].bits if measured else None
    return *found(bounding, beginnings, words.rounds, bits, tell), bits


def parting_of(bounding, answer):
    """Where most states part, if there are too many paths."""
    return Parting(bounding.task(answer.cut, answer.budget)) if answer.is_waiting() else None


def trust_lines(words, bounding, answer):
    """Of how many random secrets an answer with regions speaks, and which regions are broken."""
    secret = words.secrets[0] if length_of(words.secrets) is None else None
    named = Inputs(words.program, words.public, secret, bounding.inputs.options)
    trust = trust_of(bounding.asked, named, bounding.program, answer.cut.secret_length)
    return [trust.covers_words(), *trust.sentences()] if trust else []


def main():
    """Searches, writes the cut, and says what was found."""
    words = arguments()
    options = option_words(words, *OPTIONS)
    look_at_place(words.output)
    look_at_secrets(words.secrets)
    try:
        program, inputs = program_of(words.program), Inputs(words.program, words.public, None, options)
        bounding = Bounding(Program(words.flowcheck), inputs, program, words.any_public)
        answer, walk, bits = find(bounding, words, lambda text: print(text, flush=True))
    except NoBound as fault:
        return told(str(fault), 1)
    again, beside = bounding.again(words.output, answer), trust_lines(words, bounding, answer)
    if answer.is_bounded:
        print(wrapped(bounded_lines(answer, words.public, bounding.turns, bits, again, beside)))
    else:
        parting = parting_of(bounding, answer)
        print(wrapped(unclear_lines(answer, walk, program, Places(words.program, program), again, parting, beside)))
    write_text(words.output, answer.cut.text())
    outputs = least_count(answer.numbers) if answer.is_bounded else None
    return too_many(outputs, words.most) or (0 if answer.is_bounded else 1)


if __name__ == "__main__":
    finish(main)
