#!/usr/bin/env python3
"""Judges many secrets by calls of `check` with one program, public input, cut, regions, budget and limit of turns, so
that one bound covers them all: those that are accepted have at most 2^BUDGET different outputs. The calls are handed to
GNU parallel, on this machine or over ssh, or to Slurm. Puts a report, and beside it three tables and a picture.

SECRETS is a folder whose files are the secrets, or a file with a secret a line in hexadecimal; else --digits or
--random say which they are. Status 0: all secrets are accepted; 1: all are judged, and some rejected; 2: the words are
no command line; 3: the sweep is refused; 4: some secrets are not judged; 5: the answers contradict the bound.

With --bound it asks `bound` of many public inputs, each in a call of its own: `sweep.py --bound PROG CUT BUDGET
PUBLICS`, of which `sweep.py --bound --help` says more."""
import argparse
import fcntl
import json
import os
import shutil
import sys
import tempfile
import time

HERE = os.path.dirname(os.path.abspath(__file__))
sys.path[:0] = [os.path.join(HERE, name) for name in ("sweep", "explain", "model")]

from bars import picture
from batch import caller, put, read
from bounds_merge import MergedBounds
from bounds_merge import report_of as bounds_report
from bounds_merge import write_bounds
from built_program import program_words
from cuts import read_cut, read_regions
from elf_symbols import ProgramFile
from engines import Parallel, Slurm
from manifest import Sweep
from merge import Contradiction, Merged, power, report_of, write_tables
from misleading import of_cut
from refusals import cut_fault, program_fault, regions_fault
from run_words import number
from secret_lists import Refused, lists_of

BOUND = """Asks `bound` of many public inputs with one program, cut, regions, budget, limits of turns and of walks, each
in a call of its own. The calls are handed to GNU parallel, on this machine or over ssh, or to Slurm. Puts a report,
whose last line says where the most outputs are, and beside it a table.

PUBLICS is a folder whose files are the public inputs, or a file with one a line in hexadecimal; else --lengths,
--digits or --random say which they are. Status 0: all are bounded; 1: all are answered, and some are unclear; 2: the
words are no command line; 3: the sweep is refused; 4: some are not answered."""


def lengths(word):
    """A range of lengths, as 0-64."""
    first, _, last = word.partition("-")
    pair = number(0, 1_048_576)(first), number(0, 1_048_576)(last)
    if pair[0] > pair[1]:
        raise argparse.ArgumentTypeError("the first length is above the last")
    return pair


def words():
    """The words of the command line, of a sweep of `check` or of `bound`."""
    return bound_words() if "--bound" in sys.argv[1:] else check_words()


def bound_words():
    """The words of a sweep of `bound`."""
    parser = argparse.ArgumentParser(description=BOUND, formatter_class=argparse.RawDescriptionHelpFormatter,
                                     allow_abbrev=False)
    parser.add_argument("--bound", action="store_true", help="asks `bound` of many public inputs")
    for name, text in [("prog", "the guest"), ("cut", "the cut")]:
        parser.add_argument(name, metavar=name.upper(), help=text)
    parser.add_argument("budget", metavar="BUDGET", type=number(0, 1_048_576), help="how many bits may cross on a path")
    parser.add_argument("secrets", metavar="PUBLICS", nargs="?", help="a folder, or a file of hexadecimal lines")
    parser.add_argument("--lengths", metavar="A-B", type=lengths, help="one of each length, with --any-public")
    parser.add_argument("--any-public", action="store_true", help="of any public input of each length")
    parser.add_argument("--rules", metavar="N", type=number(1, 3), default=1, help="the table of mask rules (1)")
    parser.add_argument("--paths", metavar="N", type=number(1, 1_048_576), default=65_536,
                        help="how many walks may be made (65536)")
    add_lists(parser, "public input")
    add_shared(parser)
    parser.add_argument("--calls", metavar="N", type=number(1, 1024), help="calls of bound in a batch (1 to 16)")
    args = parser.parse_intermixed_args()
    if sum(one is not None for one in (args.secrets, args.digits, args.random, args.lengths)) != 1:
        parser.error("one of PUBLICS, --lengths, --digits and --random says which the public inputs are")
    if (args.random is None) != (args.size is None):
        parser.error("--random and --size go together")
    if args.lengths and not args.any_public:
        parser.error("--lengths goes with --any-public")
    return args


def add_lists(parser, name):
    """The options that make a list of secrets or public inputs."""
    parser.add_argument("--digits", metavar="N", type=number(1, 9), help="all strings of N decimal digits")
    parser.add_argument("--random", metavar="N", type=number(1, 10**9), help=f"N random {name}s")
    parser.add_argument("--size", metavar="S", type=number(0, 65_536), help=f"bytes of a random {name}")
    parser.add_argument("--seed", metavar="K", type=number(0, 2**64), default=1, help=f"seed of the random {name}s (1)")


def add_shared(parser):
    """The options of both kinds of sweeps."""
    parser.add_argument("--regions", metavar="F", help="the region file")
    parser.add_argument("--turns", metavar="N", type=number(1, 20_000_000), default=1_000_000,
                        help="the limit of turns (1000000)")
    engine = parser.add_mutually_exclusive_group()
    engine.add_argument("--jobs", metavar="N", type=number(1, 65_536),
                        help="batches at a time here (as many as processors)")
    engine.add_argument("--hosts", metavar="FILE", help="the sshloginfile of GNU parallel")
    engine.add_argument("--slurm", action="store_true", help="a job array of Slurm")
    parser.add_argument("--flowcheck", metavar="FILE",
                        help="the program (FLOWCHECK, else the one built or installed with this)")
    parser.add_argument("--results", metavar="DIR", default="sweep-results",
                        help="where the results go (sweep-results)")
    parser.add_argument("--resume", action="store_true", help="go on with the sweep whose results are there")


def check_words():
    """The words of a sweep of `check`."""
    parser = argparse.ArgumentParser(description=__doc__, formatter_class=argparse.RawDescriptionHelpFormatter,
                                     allow_abbrev=False)
    for name, text in [("prog", "the guest"), ("public", "the public input"), ("cut", "the cut")]:
        parser.add_argument(name, metavar=name.upper(), help=text)
    parser.add_argument("budget", metavar="BUDGET", type=number(0, 1_048_576), help="how many bits may cross in a run")
    parser.add_argument("secrets", metavar="SECRETS", nargs="?", help="a folder, or a file of hexadecimal lines")
    add_lists(parser, "secret")
    add_shared(parser)
    parser.add_argument("--calls", metavar="N", type=number(1, 1024), help="calls of check in a batch (4 to 16)")
    args = parser.parse_args()
    if (args.secrets is not None) + (args.digits is not None) + (args.random is not None) != 1:
        parser.error("one of SECRETS, --digits and --random says which the secrets are")
    if (args.random is None) != (args.size is None):
        parser.error("--random and --size go together")
    return args


def program_file(args):
    """The file of the program: it is hashed, and copied to where it runs."""
    words = [args.flowcheck] if args.flowcheck is not None else program_words()
    if not words:
        raise Refused("there is no program: --flowcheck names its file")
    if len(words) > 1:
        raise Refused("FLOWCHECK is a command of several words: --flowcheck names the file of the program")
    return shutil.which(words[0]) or words[0]


def asked(args):
    """The sweep that the words ask for."""
    paths = {"flowcheck": program_file(args), "program": args.prog, "cut": args.cut, "regions": args.regions}
    bound = None
    if is_bound(args):
        bound = {"command": "bound", "rules": args.rules, "paths": args.paths, "any_public": args.any_public}
    else:
        paths["public"] = args.public
    return Sweep(paths, args.budget, args.turns, lists_of(args), args.calls, earlier(args), bound)


def is_bound(args):
    """Whether `bound` is asked."""
    return hasattr(args, "any_public")


def earlier(args):
    """The manifest of the results that are there, if it is to be gone on with."""
    path = os.path.join(args.results, "manifest.json")
    if not os.path.exists(path):
        return None
    if not args.resume:
        raise Refused(f"{args.results} has the results of a sweep; --resume goes on with it")
    return json.loads(read(path))


def locked(folder):
    """A lock that this sweep and all that it starts keep: no two sweeps work in one folder."""
    os.makedirs(folder, mode=0o700, exist_ok=True)
    lock = os.open(os.path.join(folder, "lock"), os.O_WRONLY | os.O_CREAT, 0o600)
    try:
        fcntl.flock(lock, fcntl.LOCK_EX | fcntl.LOCK_NB)
    except BlockingIOError:
        print("waiting for the batches that an earlier run has under way", file=sys.stderr)
        fcntl.flock(lock, fcntl.LOCK_EX)
    return lock


def try_first(folder, sweep):
    """One call on the first secret or public input, not counted: what is refused for all is told before the engine
    starts."""
    scratch = tempfile.mkdtemp(prefix="sweep-")
    try:
        check = caller(os.path.join(folder, "files"), scratch, sweep.manifest["under"])
        answer = check.call([next(iter(sweep.secrets))])
    finally:
        shutil.rmtree(scratch, ignore_errors=True)
    if "refused" in answer.get("died", ""):
        raise Refused(f"{sweep.manifest['under'].get('command', 'check')} {answer['died']}")


def notes_of(sweep):
    """What may mislead: a cut of another program, or one that skips a region which is not there."""
    program, cut, regions = (sweep.contents.get(name) for name in ("program", "cut", "regions"))
    if program_fault(program) or cut_fault(cut) or regions and regions_fault(regions):
        return []
    return of_cut(ProgramFile(program), read_cut(cut), read_regions(regions) if regions else [])


def bounds_of(folder, sweep):
    """What was answered of each public input; the report and the status."""
    merged = MergedBounds(folder, sweep).take_all()
    write_bounds(folder, merged)
    return merged, bounds_report(merged), int(any(merged.reasons))


def verdicts_of(folder, sweep):
    """What was judged of the secrets; the report and the status."""
    merged = merged_of(folder, sweep)
    return merged, report_of(merged), int(merged.counts.get("accepted", 0) < merged.judged())


def merged_of(folder, sweep):
    """What was judged, with its tables and its picture in the folder."""
    merged = Merged(folder, sweep).take_all()
    write_tables(folder, merged)
    put(os.path.join(folder, "sweep.svg"), picture(merged, power(merged.budget)))
    return merged


def sweep_all(args):
    """Sweeps what is not answered yet, and prints the report; the status."""
    begin = time.perf_counter()
    folder = os.path.abspath(args.results)
    lock = locked(folder)
    sweep = asked(args)
    for note in notes_of(sweep):
        print(f"note: {note}", file=sys.stderr)
    engine = Slurm() if args.slurm else Parallel(args.jobs or os.cpu_count() or 1, args.hosts)
    sweep.write(folder)
    missing = sweep.missing(folder)
    if missing:
        try_first(folder, sweep)
        engine.run(folder, sweep, missing, lock)
    merged, report, status = (bounds_of if is_bound(args) else verdicts_of)(folder, sweep)
    sys.stdout.write(report)
    name = "bound" if is_bound(args) else "check"
    print(f"{time.perf_counter() - begin:.2f} s; calls of {name} {merged.seconds:.2f} s, {merged.processor:.2f} s of a"
          " processor", file=sys.stderr)
    return 4 if merged.unjudged else status


def main():
    """Reads the words of the command, and tells what is refused; the status."""
    args = words()
    try:
        return sweep_all(args)
    except Refused as fault:
        print(f"refused: {fault}", file=sys.stderr)
        return 3
    except OSError as fault:
        print(f"refused: {fault.filename}: {fault.strerror}", file=sys.stderr)
        return 3
    except Contradiction as fault:
        print(f"contradiction: {fault}", file=sys.stderr)
        return 5


if __name__ == "__main__":
    sys.exit(main())
