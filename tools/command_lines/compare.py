#!/usr/bin/env python3
"""compare.py [--trials N] [--seed N] [--without NAME]... COMMAND [WORD...]

Runs random lists of words through an executable in an empty folder, and judges each as the definition of command lines
does: its reading is written here once more, apart from the program. Words that are no command line must be answered by
status 2 and `refused 2 usage`, and on standard error by what is wrong and a form; a command line by status 5 and the
name of its first file, since the folder holds none, and on standard error by that name and the form; `trial`, which has
no file, by status 0 and its line. Words that ask for help or the version must be answered by status 0 and a text.
COMMAND may be several words; they stand before a trial's words. A command that the program does not have yet is named
by --without. Prints each list that differs, and last `N passed, M
failed`; the status is 1 where one failed."""
import argparse
import random
import subprocess
import sys
import tempfile
from concurrent.futures import ThreadPoolExecutor

RUN = ("--turns", "--regions")
MEASURED = RUN + ("--rules",)
CUT = MEASURED + ("--cut",)
OPTIONS = {"check": RUN, "taint": MEASURED, "bound": MEASURED + ("--paths",), "measure": CUT, "measure-all": CUT,
           "graph": MEASURED, "report": MEASURED, "learn": ("--turns",), "asm": (), "list": (), "verify": (),
           "migrate": (), "trial": ()}
COUNTS = {"check": (5, 68), "taint": (5, 68), "bound": (4, 4), "measure": (3, 3), "measure-all": (3, 66),
          "graph": (3, 3), "report": (3, 3), "learn": (4, 4)}
FLAGS = {"report": ("--json",), "bound": ("--list",)}


def number(word, lowest, highest):
    """Whether a word is a decimal without leading zeros within the range."""
    return word.isascii() and word.isdigit() and str(int(word)) == word and lowest <= int(word) <= highest


def first_file(words):
    """The name of the first file of a command line, or None where the words are none."""
    if not words or words[0] not in OPTIONS:
        return None
    taken, plain, rest = {}, [], list(words[1:])
    while rest:
        word = rest.pop(0)
        if not word:
            return None
        if not word.startswith("-"):
            plain.append(word)
            continue
        if word in ("--json", "--list"):
            if word not in FLAGS.get(words[0], ()) or word in taken:
                return None
            taken[word] = ""
            continue
        name, equals, value = word.partition("=")
        if not equals:
            if not rest or rest[0].startswith("-"):
                return None
            value = rest.pop(0)
        if not value or name not in OPTIONS[words[0]] or name in taken:
            return None
        taken[name] = value
    if not number(taken.get("--turns", "1"), 1, 20_000_000):
        return None
    if not number(taken.get("--paths", "1"), 1, 1_048_576):
        return None
    if not all(number(taken.get(name, "1"), 1, most) for name, most in (("--rules", 3), ("--cut", 2))):
        return None
    if words[0] == "trial":
        return "" if len(plain) == 1 and number(plain[0], 0, 4_294_967_295) else None
    least, most = COUNTS.get(words[0], (1, 1))
    if not least <= len(plain) <= most:
        return None
    return None if words[0] in ("check", "taint", "bound") and not number(plain[3], 0, 1_048_576) else plain[0]


ODD = ["", "-", "--", "-x", "--help", "--version", "--json", "--json=", "--json=v", "--turns", "--turns=", "--turns=5",
       "--regions", "--regions=", "--regions=r", "--regions=-r", "--regions=a=b", "--rules", "--rules=2", "--rules=3",
       "--cut=2", "--cut=02", "--turns=05", "--turns=0", "--turns=20000001", "--turn=5", "a=b", "=", "=5", "-t=5", "05",
       "1048577", "+5", " 5", "check", "report", "taint", "bound", "learn", "measure-all", "--list", "--list=",
       "--list=v", "--paths", "--paths=9", "--paths=0", "--paths=1048577"]


def option(rng):
    """An option or a flag in one of its forms."""
    if rng.random() < 0.2:
        choice = rng.choice(["1", "2"] * 4 + ["0", "3", "02", "x", ""])
        return rng.choice([["--rules", choice], ["--rules=" + choice], ["--cut", choice], ["--cut=" + choice],
                           ["--json"], ["--json"], ["--list"], ["--list"], ["--paths", choice], ["--paths=65536"]])
    kind = rng.randrange(8)
    turns = rng.choice(["1", "5", "20000000", "0", "05", "-5", "20000001", "x"]) if rng.random() < 0.3 else "7"
    return [["--turns", turns], ["--turns=" + turns], ["--regions", "r"], ["--regions=r"], ["--regions=-r"],
            ["--turns"], ["--regions", ""], ["--regions=a=b"]][kind if rng.random() < 0.3 else kind % 4]


def trial(rng):
    """Words that are nearly a command line."""
    command = rng.choice(["check"] * 4 + ["taint", "bound", "measure", "graph", "report", "learn", "measure-all"] * 2
                         + ["asm", "list", "verify", "migrate", "help", "trial"])
    if command in ("check", "taint", "bound"):
        budget = rng.choice(["0", "8", "1048576"] * 4 + ["1048577", "08", "-8", "", "x", "4294967296"])
        count = rng.choice([0, 0, 0, 0, 1] if command == "bound" else [1, 1, 2, 3, 64] * 3 + [0, 65])
        parts = [["prog"], ["public"], ["cut"], [budget]] + [["s%d" % i] for i in range(count)]
    elif command == "measure-all":
        parts = [["prog"], ["public"]] + [["s%d" % i] for i in range(rng.choice([1, 1, 2, 64] * 3 + [0, 65]))]
    elif command in ("measure", "graph", "report", "learn"):
        count = rng.choice([3, 3, 3, 2, 4]) + (command == "learn")
        parts = [["prog"], ["public"], ["secret"], ["more"], ["most"]][:count]
    elif command == "trial":
        parts = [[rng.choice(["0", "6", "99", "06", "4294967296", "-1", "x"])]] * rng.choice([1, 1, 1, 0, 2])
    else:
        parts = [["file"]] * rng.choice([1, 1, 1, 0, 2])
    for _ in range(rng.choice([0, 0, 1, 1, 2, 2, 3])):
        parts.insert(rng.randrange(len(parts) + 1), option(rng))
    words = [command] + [word for part in parts for word in part]
    for _ in range(rng.choice([0, 0, 0, 0, 1, 2])):
        change = rng.randrange(4)
        at = rng.randrange(len(words) + 1)
        if change == 0:
            words.insert(at, rng.choice(ODD))
        elif change == 1 and at < len(words):
            words[at] = rng.choice(ODD)
        elif change == 2 and at < len(words):
            del words[at]
        elif at + 1 < len(words):
            words[at], words[at + 1] = words[at + 1], words[at]
    return words


def ask(words):
    """Whether words ask for the help, that of a command or the version."""
    if len(words) > 1:
        first, second, asking = words[0], words[1], ("--help", "-h")
        is_behind = first in OPTIONS and not set(asking).isdisjoint(words)
        return first in ("help", *asking) and second in OPTIONS or is_behind
    return words in (["--help"], ["-h"], ["help"], ["--version"], ["-V"])


def judge(command, folder, words):
    """What is wrong with the answer of a command to a list of words, or None."""
    run = subprocess.run(command + words, cwd=folder, stdout=subprocess.PIPE, stderr=subprocess.PIPE, timeout=60)
    name = first_file(words)
    wanted = (2, "refused 2 usage\n", "told") if name is None else (5, "refused 5 load %s\n" % name, "told")
    error = run.stderr.decode(errors="replace")
    if error.startswith("error: " if name is None else "error: cannot read %s as " % name):
        error = "told" if "\n\nUsage: flowcheck " in error else error
    if ask(words):
        told = run.returncode == 0 and run.stdout and not run.stderr
        return None if told else "%r: no text that was asked for" % (words,)
    if name == "":
        return None if run.returncode == 0 and run.stdout.startswith(b"trial ") else "%r: no trial" % (words,)
    seen = (run.returncode, run.stdout.decode(errors="replace"), error)
    return None if seen == wanted else "%r: %r, wanted %r" % (words, seen, wanted)


def main():
    """Tries random lists of words; the status, 1 where an answer is wrong."""
    parser = argparse.ArgumentParser()
    parser.add_argument("--trials", type=int, default=10_000)
    parser.add_argument("--seed", type=int, default=1)
    parser.add_argument("--without", action="append", default=[], choices=OPTIONS)
    parser.add_argument("command", nargs=argparse.REMAINDER)
    args = parser.parse_args()
    for name in args.without:
        del OPTIONS[name]
    rng = random.Random(args.seed)
    lists = [trial(rng) for _ in range(args.trials)]
    with tempfile.TemporaryDirectory() as folder, ThreadPoolExecutor(2) as pool:
        failed = [line for line in pool.map(lambda words: judge(args.command, folder, words), lists) if line]
    for line in failed:
        print(line)
    usage = sum(first_file(words) is None for words in lists)
    print("%d of %d are usage" % (usage, len(lists)), file=sys.stderr)
    print("%d passed, %d failed" % (len(lists) - len(failed), len(failed)))
    return 1 if failed else 0


if __name__ == "__main__":
    sys.exit(main())
