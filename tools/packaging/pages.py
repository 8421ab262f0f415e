"""Makes the man page of flowcheck, and its completions for bash, zsh and fish, of what the built program says.

Call: pages.py FOLDER [--flowcheck COMMAND] [--date DATE]

  --flowcheck COMMAND  the program; without it FLOWCHECK, else the one that is built here, or `flowcheck` on the PATH
  --date DATE          the date of the man page, as 2026-11-29; none without it

The commands, their words and options, what their statuses mean and their examples are those of `flowcheck --help` and
`flowcheck help COMMAND`: a new command or option needs nothing here. The files are written where they are installed:
share/man/man1/flowcheck.1, share/bash-completion/completions/flowcheck, share/zsh/site-functions/_flowcheck and
share/fish/vendor_completions.d/flowcheck.fish, all in FOLDER. The status is 3 where the program has no such help, or a
file cannot be written."""
import argparse
import os
import shlex
import sys

HERE = os.path.dirname(os.path.abspath(__file__))
sys.path[:0] = [os.path.join(os.path.dirname(HERE), name) for name in ("packaging", "explain", "model")]

from built_program import program_words
from completions import bash_completion, fish_completion, zsh_completion
from help_table import table_of
from man_page import man_page
from tool import finish

PAGE = "share/man/man1/flowcheck.1"
COMPLETIONS = {
    "share/bash-completion/completions/flowcheck": bash_completion,
    "share/zsh/site-functions/_flowcheck": zsh_completion,
    "share/fish/vendor_completions.d/flowcheck.fish": fish_completion,
}


def texts_of(table, date):
    """The texts by the names of their files."""
    return {PAGE: man_page(table, date)} | {name: made(table) for name, made in COMPLETIONS.items()}


def main():
    """Writes the files."""
    parser = argparse.ArgumentParser(description=__doc__, formatter_class=argparse.RawDescriptionHelpFormatter)
    parser.add_argument("folder", metavar="FOLDER")
    parser.add_argument("--flowcheck", metavar="COMMAND")
    parser.add_argument("--date", metavar="DATE", default="")
    words = parser.parse_args()
    program = program_words() if words.flowcheck is None else shlex.split(words.flowcheck)
    if not program:
        parser.error("there is no built program: --flowcheck names one")
    for name, text in texts_of(table_of(program), words.date).items():
        path = os.path.join(words.folder, name)
        os.makedirs(os.path.dirname(path), exist_ok=True)
        with open(path, "w", encoding="utf-8") as file:
            file.write(text)
    return 0


if __name__ == "__main__":
    finish(main)
