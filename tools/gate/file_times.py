#!/usr/bin/env python3
"""file_times.py CRATE [LEAST] [--kept]
file_times.py --gate [LEAST]

Prints how many seconds the prover takes for each function of a crate and for each file of its specs/ and proofs/,
longest first, down to LEAST seconds (1 without the word), with the part of a function that took most. The crate is
checked from nothing at one job; with `--kept` the last check is read instead, and then only what it proved anew is
right. The prover keeps each module in a file of its own as soon as it is checked, so the time between two such files is
that of the later one. With `--gate` nothing is checked: it reads the proofs that the edits of a running gate on this
machine begin with, as far as they are made, each of one crate.

Parts of a function: `Lts` is which values and loans live at each step, and grows faster than the function; `Proof` is
the proof itself, dear where a tactic searches; `Tie` ties the two to the code. It works in the crate's out/ folder.
Python 3 and the kit's `rt` on the PATH."""
import argparse
import collections
import pathlib
import shutil
import subprocess
import sys
import tempfile

TOP = pathlib.Path(__file__).resolve().parents[2]
ENDS = ".decls.oantt", ".oantt"


def modules(kept):
    """Each kept module with the seconds since the one that was kept before it."""
    files = sorted((path.stat().st_mtime, path.name) for path in kept.rglob("*.oantt"))
    for (before, _), (after, name) in zip(files, files[1:]):
        for end in ENDS:
            name = name.removesuffix(end)
        yield name, after - before


def place_of(module):
    """The function or the file that a module belongs to, and its part of it."""
    library, *names = module.split(".")
    folder = library.rsplit("-", 1)[-1]
    if folder not in ("specs", "proofs") or not names:
        return "the library's own module", "whole"
    if folder == "proofs" and len(names) > 1:
        return ".".join(names[:-1]), names[-1]
    return f"{folder}/{'/'.join(names)}", "whole"


def crate_of(kept):
    """The crate most of whose modules a folder has."""
    names = collections.Counter(path.name.split("-")[1].split(".")[0] for path in kept.rglob("Rattle-*-proofs*.oantt"))
    return names.most_common(1)[0][0] if names else None


def show(crate, kept, least):
    """Prints the times of a crate, read off the folder in which its modules are kept."""
    times = collections.defaultdict(collections.Counter)
    parts = collections.Counter()
    for module, seconds in modules(kept):
        place, part = place_of(module)
        times[place][part] += seconds
        parts[part] += seconds
    dear = ", ".join(f"{part} {seconds:.0f}" for part, seconds in parts.most_common(5))
    print(f"{crate}: {sum(parts.values()):.0f} s; by part: {dear}")
    for place, spent in sorted(times.items(), key=lambda item: -sum(item[1].values())):
        if sum(spent.values()) >= least:
            part, most = spent.most_common(1)[0]
            print(f"{sum(spent.values()):7.1f} s  {place}  ({part} {most:.1f})")


def show_running(least):
    """Prints the times of the crates whose edits a running gate tries."""
    for kept in sorted(pathlib.Path(tempfile.gettempdir()).glob("rt-edits-*/seed")):
        crate = crate_of(kept)
        if crate:
            show(crate, kept, least)


def words_of(parser):
    """The crate, or None for those of a running gate, the least seconds, and whether the last check is read."""
    parser.add_argument("words", metavar="CRATE [LEAST]", nargs="*", help="the name of a crate, and the least seconds")
    way = parser.add_mutually_exclusive_group()
    way.add_argument("--kept", action="store_true", help="read the last check, and check nothing")
    way.add_argument("--gate", action="store_true", help="read what a running gate has proved for its edits")
    given = parser.parse_args()
    words = given.words
    crate = None if given.gate else words.pop(0) if words else parser.error("name a crate, or say --gate")
    if len(words) > 1:
        parser.error(f"there are words too many: {' '.join(words[1:])}")
    try:
        least = float(words[0]) if words else 1.0
    except ValueError:
        parser.error(f"that is no number of seconds: {words[0]}")
    return crate, least, given.kept


def main():
    """Prints the seconds of each file of a crate, or, where none is named, of what runs."""
    parser = argparse.ArgumentParser(description=__doc__, formatter_class=argparse.RawDescriptionHelpFormatter)
    crate, least, is_kept = words_of(parser)
    if crate is None:
        show_running(least)
        return
    folder = TOP / "crates" / crate
    if not folder.is_dir():
        parser.error(f"there is no crate {crate}")
    kept = folder / "out/incremental"
    if not is_kept:
        shutil.rmtree(kept, ignore_errors=True)
        done = subprocess.run(["rt", "check", "--jobs", "1"], cwd=folder, capture_output=True, text=True)
        if done.returncode != 0:
            sys.exit(done.stdout + done.stderr)
    show(crate, kept, least)


if __name__ == "__main__":
    main()
