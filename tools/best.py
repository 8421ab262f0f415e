"""Looks for the least bound of all outputs that secrets of one length can give, within some seconds.

Call: best.py PROG PUBLIC LENGTH|SECRET... [--seconds N] [--any-public] [--regions FILE] [--turns N] [--rules N]
              [--most N] [--output NAME] [--flowcheck COMMAND]

It tries one way after another, first with few walks and then with more: no region, by each table of mask rules; cuts
upstream of decisions, where the values are made by which is decided; and regions around calls and loops, which are
learnt of random secrets until none of 200 breaks one, and judged by the outputs that `bound` counts. The best is kept.
Beside that the guest is run on 1,000 random secrets, or on all where there are fewer, by qemu where it is there, else
by the model: how many different outputs these have is a number below which no bound can be. Where both are the same it
ends, else when every way was tried, when the seconds are over, at Ctrl-C or at TERM. What was found until then is
printed.

  --seconds N          the seconds in all; 60 without it
  --any-public         of any public input of the length of PUBLIC, not of PUBLIC alone
  --regions FILE       a region file; then no other regions are tried
  --rules N            this table of mask rules alone
  --turns N            as of `bound`
  --most N             fails, with status 4 and a line, where more than N outputs are found or no number is known
  --output NAME        writes what is printed into NAME, the cut into NAME.cut and regions that were found into
                       NAME.regions, both as soon as they are found; `best.bound` without it
  --flowcheck COMMAND  the program; without it FLOWCHECK, else the one built or installed with this, else the model

Prints a line for each way that was tried, then in words what is bounded, and the words that ask again. The status is 0
where it is bounded, 1 where it is not, 4 where --most says so."""
import os
import sys

HERE = os.path.dirname(os.path.abspath(__file__))
sys.path[:0] = [os.path.join(HERE, "explain"), os.path.join(HERE, "model")]

from answering import Program
from best_bound import BestBound
from best_words import best_lines, keep_files
from bounding import NoBound
from run_facts import Inputs, read
from run_words import add_options, length_of, look_at_secrets, number, option_words, parser_of, too_many
from tool import finish, look_at_place, program_of, stop_at_term, told, wrapped, write_text

NOTHING = "Nothing was found within the time: --seconds gives more"


def arguments():
    """The words of the command line."""
    parser = parser_of(__doc__)
    parser.add_argument("public", metavar="PUBLIC")
    parser.add_argument("secrets", metavar="SECRET", nargs="+")
    parser.add_argument("--seconds", type=number(1, kind=float), default=60, metavar="N")
    parser.add_argument("--any-public", action="store_true")
    add_options(parser, "regions", "turns", "rules")
    parser.add_argument("--most", type=number(1), metavar="N")
    parser.add_argument("--output", default="best.bound")
    return parser.parse_intermixed_args()


def best_of(words, tell):
    """The search, when it has ended."""
    options = option_words(words, "regions", "turns", "rules")
    program, inputs = program_of(words.program), Inputs(words.program, words.public, None, options)
    length = length_of(words.secrets)
    secrets = words.secrets if length is None else []
    length = len(read(secrets[0])) if secrets else length
    named = Program(words.flowcheck), inputs, program, secrets, length, words.any_public
    search = BestBound(*named, words.seconds, tell, lambda found: keep_files(found, words.output))
    search.search()
    return search


def main():
    """Searches, writes the files, and says what was found."""
    words = arguments()
    look_at_place(words.output)
    look_at_secrets(words.secrets)
    stop_at_term()
    try:
        search = best_of(words, lambda text: print(text, flush=True))
    except NoBound as fault:
        return told(str(fault), 1)
    if search.best is None:
        return too_many(None, words.most) or told(NOTHING, 1)
    text = wrapped(best_lines(search, words.output))
    print(f"It ended as {search.why}.\n{text}")
    keep_files(search, words.output)
    write_text(words.output, text.lstrip("\n") + "\n")
    return too_many(search.best.outputs(), words.most) or (0 if search.best.answer.is_bounded else 1)


if __name__ == "__main__":
    finish(main)
