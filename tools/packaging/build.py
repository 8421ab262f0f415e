"""Builds the program with the Rattle kit, unless it stands there and no source is newer.

Call: build.py [--look]

The gate, .ci/run, builds the program too: after it there is nothing to do. Else each crate on which the program stands
and that was not proved here is proved, several side by side, by `rt all check`; then `rt run` builds the program. A
line is printed for each crate that is done, with the minutes since it began. What `rt` says goes into build.log beside
the program. What the gate has kept elsewhere on the machine is not taken.

  --look   says what would be done, and does nothing

The status is that of `rt run`; 0 where nothing was to do, and 1 where `rt` is not there."""
import argparse
import os
import re
import shutil
import subprocess
import sys
import time

TOP = os.path.dirname(os.path.dirname(os.path.dirname(os.path.abspath(__file__))))
CRATES = os.path.join(TOP, "crates")
PROGRAM = os.path.join(CRATES, "flowcheck", "out", "flowcheck")
LOG = os.path.join(CRATES, "flowcheck", "out", "build.log")
PARTS = ("src", "specs", "proofs", "c")
# In kB, as /proc/meminfo counts.
MEMORY_OF_A_PROOF = 4_000_000
NO_KIT = (
    "There is no rt on the PATH. The program is built by the Rattle kit rattle-kit-13, one folder from the makers of "
    "Rattle. Without it take an archive that make dist made, or name a program that was built elsewhere: make install "
    "PROGRAM=FILE"
)


def crates_below(name):
    """The crates on which one stands, with itself."""
    with open(os.path.join(TOP, "crates.txt"), encoding="utf-8") as file:
        lines = [re.sub("#.*", "", line).split() for line in file]
    needs = {words[0].rstrip(":"): [word for word in words[1:]] for words in lines if words}
    found, left = set(), [name]
    while left:
        crate = left.pop()
        if crate in needs and crate not in found:
            found.add(crate)
            left += needs[crate]
    return sorted(found)


def newest_source(crates):
    """When the newest source of some crates was changed, and its name."""
    newest = os.path.getmtime(os.path.join(TOP, "crates.txt")), "crates.txt"
    for crate in crates:
        for part in PARTS:
            for place, _, names in os.walk(os.path.join(CRATES, crate, part)):
                for path in [place, *(os.path.join(place, name) for name in names)]:
                    newest = max(newest, (os.path.getmtime(path), os.path.relpath(path, TOP)))
    return newest


def proved(crates):
    """The crates whose libraries are made, with when that was."""
    stamps = {crate: os.path.join(CRATES, crate, "out", "rlib", "stamp") for crate in crates}
    return {crate: os.path.getmtime(path) for crate, path in stamps.items() if os.path.exists(path)}


def told(text):
    """Says something at once."""
    print(text, flush=True)


def side_by_side():
    """How many crates are proved at once: one for each processor and each 4 GB of memory that is free."""
    with open("/proc/meminfo", encoding="ascii") as file:
        free = int(re.search(r"MemAvailable: *(\d+) kB", file.read())[1]) // MEMORY_OF_A_PROOF
    return max(1, min(len(os.sched_getaffinity(0)), free))


def follow(process, crates, before, begin):
    """Waits for a process, and prints a line for each crate that is proved until it ends."""
    done = set()
    while process.poll() is None:
        time.sleep(1)
        now = proved(crates)
        for crate in sorted(set(now) - done, key=now.get):
            if now[crate] != before.get(crate):
                done.add(crate)
                told(f"{(time.time() - begin) / 60:6.1f} min  {crate} is proved, {len(now)} of {len(crates) - 1}")


def build(crates):
    """Proves what is not proved, and builds the program; the status of `rt run`, which goes on where proofs failed."""
    begin, folder = time.time(), os.path.dirname(os.path.dirname(PROGRAM))
    os.makedirs(os.path.dirname(PROGRAM), exist_ok=True)
    with open(LOG, "w", encoding="utf-8") as log:
        for words in (["rt", "all", "check", "--jobs", str(side_by_side())], ["rt", "run", "--", "--version"]):
            with subprocess.Popen(words, cwd=folder, stdout=log, stderr=subprocess.STDOUT) as process:
                try:
                    follow(process, crates, proved(crates), begin)
                except KeyboardInterrupt:
                    told("stopped; make goes on with what was proved until now")
                    process.wait()
                    return 130
            told(f"{(time.time() - begin) / 60:6.1f} min  {' '.join(words)} ended with status {process.returncode}")
    if process.returncode:
        told(f"What it said is in {os.path.relpath(LOG, TOP)}.")
    return process.returncode


def main():
    """Builds the program where that is wanted."""
    parser = argparse.ArgumentParser(description=__doc__, formatter_class=argparse.RawDescriptionHelpFormatter)
    parser.add_argument("--look", action="store_true")
    words, crates = parser.parse_args(), crates_below("flowcheck")
    changed, name = newest_source(crates)
    shown = os.path.relpath(PROGRAM, TOP)
    if os.path.exists(PROGRAM) and os.path.getmtime(PROGRAM) > changed:
        told(f"{shown} is there, and no source of its {len(crates)} crates is newer: nothing is to be built.")
        return 0
    why = f"{name} is newer than {shown}" if os.path.exists(PROGRAM) else f"there is no {shown}"
    told(f"The program is built, as {why}: those of its {len(crates)} crates that are not proved here are proved. "
         "From nothing that takes half an hour or more on four processors.")
    if words.look:
        return 0
    if not shutil.which("rt"):
        print(NO_KIT, file=sys.stderr)
        return 1
    return build(crates)


if __name__ == "__main__":
    sys.exit(main())
