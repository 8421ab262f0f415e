"""The words that scripts about runs have in common: the program, and who answers."""
import argparse
import os
import sys

from run_facts import Unusable

MOST_LENGTH = 65_536


def number(least, most=None, kind=int):
    """What reads a number from one on, and up to another where one is named."""
    told = f"no number from {least} on" if most is None else f"no number from {least} to {most}"

    def read(text):
        try:
            value = kind(text) if text.isascii() else least - 1
        except ValueError:
            value = least - 1
        if not (least <= value and (most is None or value <= most)):
            raise argparse.ArgumentTypeError(f"{text!r} is {told}")
        return value

    return read


TURNS, PATHS, RULES, BUDGET = number(1, 20_000_000), number(1, 1_048_576), number(1, 3), number(0, 1_048_576)
KINDS = {"turns": TURNS, "paths": PATHS, "rules": RULES, "regions": str}


def add_options(parser, *names):
    """Adds options of the program itself, whose limits are those of the program."""
    for name in names:
        parser.add_argument(f"--{name}", type=KINDS[name], metavar="FILE" if name == "regions" else "N")


def option_words(words, *names):
    """The options that were given, as words of the program."""
    given = [(name, getattr(words, name)) for name in names]
    return [word for name, value in given if value is not None for word in (f"--{name}", str(value))]


def too_many(outputs, most):
    """The status of a build that wants at most so many outputs, with a line where there may be more; else 0."""
    if most is None or outputs is not None and outputs <= most:
        return 0
    found = "no number is known" if outputs is None else f"there may be {outputs:,}"
    print(f"At most {most:,} outputs are wanted, and {found}.", file=sys.stderr)
    return 4


def parser_of(text):
    """The parser of a script whose help is this text, which says the call too."""
    parser = argparse.ArgumentParser(description=text, formatter_class=argparse.RawDescriptionHelpFormatter,
                                     allow_abbrev=False)
    parser.add_argument("program", metavar="PROG")
    parser.add_argument("--flowcheck")
    return parser


def length_of(secrets):
    """The length that stands for the secrets, or None. A number above all lengths that names no file is told."""
    if len(secrets) != 1 or not (secrets[0].isascii() and secrets[0].isdigit()) or os.path.exists(secrets[0]):
        return None
    if int(secrets[0]) > MOST_LENGTH:
        raise Unusable(f"{secrets[0]}: there is no such file, and as a length it is above {MOST_LENGTH:,}")
    return int(secrets[0])


def look_at_secrets(secrets):
    """Looks at a length or at the files of secrets: they must be there, and it is said where there is no secret."""
    length = length_of(secrets)
    missing = [name for name in secrets if length is None and not os.path.exists(name)]
    if missing:
        raise Unusable(f"{missing[0]}: No such file or directory; a length is one number, up to {MOST_LENGTH:,}")
    if (os.path.getsize(secrets[0]) if length is None else length) == 0:
        print("The length is 0: there is no secret, so that nothing can be given away.", file=sys.stderr)
