#!/usr/bin/env python3
"""gate_shares.py [NAME...]

Runs `rt ci` at the top of the repository, with the names that are given or none, passes its output on, and prints at
the end how many processor minutes each crate took: its proof, its tests and its must-fail edits. The shares are read
off the running checks twice a second, so a check shorter than that may be missed. Other checks on the machine that
work in other checkouts are not counted. Last stands how many times the proof of `flow_base` the whole is, and the
longest proof of a crate: these two tell of the gate, whatever machine it runs on. The goal is 80 times at most for the
whole and 1.8 times for a crate. Linux with Python 3."""
import argparse
import os
import pathlib
import subprocess
import sys
import threading
import time

TICKS = os.sysconf("SC_CLK_TCK")
BASE, MOST_WHOLE, MOST_CRATE = "flow_base", 80, 1.8


def children(parent):
    """The processes below one, itself included."""
    below = {}
    for entry in pathlib.Path("/proc").iterdir():
        if entry.name.isdigit():
            try:
                fields = (entry / "stat").read_text().rsplit(")", 1)[1].split()
            except OSError:
                continue
            below.setdefault(int(fields[1]), []).append(int(entry.name))
    found, left = [], [parent]
    while left:
        process = left.pop()
        found.append(process)
        left += below.get(process, [])
    return found


def part_of(process):
    """The crate and the part of the gate that a process checks, or None."""
    folder = pathlib.Path(f"/proc/{process}")
    try:
        words = (folder / "cmdline").read_bytes().decode(errors="replace").split("\0")
        place = os.readlink(folder / "cwd")
        fields = (folder / "stat").read_text().rsplit(")", 1)[1].split()
    except OSError:
        return None
    if "--crate-name" not in words:
        return None
    crate = words[words.index("--crate-name") + 1]
    part = "edits" if "/rt-edit-" in place else "tests" if "--test" in words else "proof"
    return crate, part, (int(fields[11]) + int(fields[12])) / TICKS


def watch(run, shares):
    """Keeps the processor seconds of each check of a run until the run has ended."""
    while run.poll() is None:
        for process in children(run.pid):
            found = part_of(process)
            if found:
                crate, part, seconds = found
                shares[process, crate, part] = max(seconds, shares.get((process, crate, part), 0))
        time.sleep(0.5)


def ratios(proofs, total):
    """The whole and the longest proof of a crate, as multiples of the proof of the crate at the bottom."""
    if not proofs.get(BASE):
        return f"{BASE} was not proved in this run, so there is nothing to compare with"
    longest = max(proofs, key=proofs.get)
    return (f"all: {total / proofs[BASE]:.0f} times the proof of {BASE}, at most {MOST_WHOLE} wanted; "
            f"longest proof, of {longest}: {proofs[longest] / proofs[BASE]:.1f} times, at most {MOST_CRATE} wanted")


def main():
    """Runs the gate, and prints the shares."""
    parser = argparse.ArgumentParser(description=__doc__, formatter_class=argparse.RawDescriptionHelpFormatter)
    parser.add_argument("names", metavar="NAME", nargs="*")
    words, begin = parser.parse_args(), time.time()
    run = subprocess.Popen(["rt", "ci", *words.names])
    shares = {}
    watcher = threading.Thread(target=watch, args=(run, shares))
    watcher.start()
    status = run.wait()
    watcher.join()
    crates = sorted({crate for _, crate, _ in shares})
    total = sum(shares.values()) / 60
    print(f"\n{total:.0f} processor minutes in checks, {(time.time() - begin) / 60:.0f} minutes of wall time, "
          f"{os.cpu_count()} processors\n")
    print("| Crate | Proof | Tests | Edits | All |\n|---|---|---|---|---|")
    proofs = {}
    for crate in crates:
        parts = {part: sum(s for (_, c, p), s in shares.items() if c == crate and p == part) / 60
                 for part in ("proof", "tests", "edits")}
        proofs[crate] = parts["proof"]
        print(f"| `{crate}` | {parts['proof']:.1f} | {parts['tests']:.1f} | {parts['edits']:.1f} "
              f"| {sum(parts.values()):.1f} |")
    print(f"\n{ratios(proofs, total)}")
    return status


if __name__ == "__main__":
    sys.exit(main())
