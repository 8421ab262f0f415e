"""Runs a guest: its output on standard output, and on standard error its status and how much it read of its inputs.

Call: run.py PROG PUBLIC SECRET [--by model|qemu] [--regions FILE] [--turns N] [--seconds N]

  --by model      the model in tools/model, which is taken without the option: a run as `measure` makes it
  --by qemu       qemu-riscv32 (Debian qemu-user), which is faster, knows no regions, and lets a guest reach more memory
  --regions FILE  the region file: the run is stopped where it breaks a region, as it is by `check`
  --turns N       the turns within which the model's run must exit; 1000000 without it
  --seconds N     the seconds within which qemu must come to an end; 60 without it

The status is 0 where the guest exited, whatever its own status is; 1 where it did not; 2 where the words are no command
line; 3 where a file cannot be used."""
import argparse
import os
import sys

HERE = os.path.dirname(os.path.abspath(__file__))
sys.path[:0] = [os.path.join(HERE, "explain"), os.path.join(HERE, "model")]

from run_facts import read, regions_of
from run_words import TURNS, number
from running import run_by_model, run_by_qemu
from tool import finish, program_of, told
from verdicts import USUAL_TURNS


def arguments():
    """The words of the command line."""
    parser = argparse.ArgumentParser(description=__doc__, formatter_class=argparse.RawDescriptionHelpFormatter,
                                     allow_abbrev=False)
    parser.add_argument("program", metavar="PROG")
    parser.add_argument("public", metavar="PUBLIC")
    parser.add_argument("secret", metavar="SECRET")
    parser.add_argument("--by", choices=("model", "qemu"), default="model")
    parser.add_argument("--regions", metavar="FILE")
    parser.add_argument("--turns", metavar="N", type=TURNS)
    parser.add_argument("--seconds", metavar="N", type=number(0.001, kind=float))
    words = parser.parse_intermixed_args()
    if words.by == "qemu" and (words.regions or words.turns):
        parser.error("--regions and --turns are options of the model's run")
    if words.by == "model" and words.seconds:
        parser.error("--seconds is an option of qemu's run")
    return words


def ran(words):
    """The run."""
    program = program_of(words.program)
    if words.by == "qemu":
        return run_by_qemu(words.program, words.public, words.secret, words.seconds or 60)
    inputs = read(words.public), read(words.secret)
    return run_by_model(program.image, *inputs, regions_of(words.regions), words.turns or USUAL_TURNS)


def main():
    """Runs the guest."""
    words = arguments()
    run = ran(words)
    sys.stdout.buffer.write(run.output)
    sys.stdout.flush()
    told("\n".join(run.lines((words.public, words.secret))), 0)
    return 0 if run.reason is None else 1


if __name__ == "__main__":
    finish(main)
