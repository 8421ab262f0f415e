#!/usr/bin/env python3
"""sweep.py EXECUTABLE [--secrets N N] [--jobs N]

Times `tools/sweep.py` with the built program, on one processor and on all (or N), for a guest of 100 turns and one of
100,000, over so many random secrets each (20,000 and 5,000 without the option). Prints for each the secrets a second
and the share of the time that is not `check` itself: by the clock, of all slots for batches, and by what the processors
worked.
The first line of each guest is a bare loop of as many calls, without any sweep. Linux, with GNU parallel (Debian
parallel)."""
import argparse
import json
import os
import pathlib
import subprocess
import sys
import tempfile
import time

from run import EXIT

SWEEP = pathlib.Path(__file__).resolve().parent.parent / "tools" / "sweep.py"
READ_BYTES = ["li a0, 3", "li a1, 0x80000", "li a2, 4", "li a7, 63", "ecall"]
NO_CUT = "flowcheck-cut 1\nsecret 4\nbits 0\nend\n"


def guest_of(turns):
    """Reads a secret of four bytes, and makes so many turns in all."""
    rounds = (turns - 14) // 2
    return "\n".join(READ_BYTES + [f"li t0, {rounds}", "loop: addi t0, t0, -1", "bne t0, x0, loop"] + EXIT) + "\n"


def assembled(executable, folder, turns):
    """Writes the files of a guest with so many turns."""
    (folder / "source").write_text(guest_of(turns))
    program = subprocess.run([executable, "asm", folder / "source"], stdout=subprocess.PIPE, check=True).stdout
    (folder / "program").write_bytes(program)
    (folder / "public").write_bytes(b"")
    (folder / "cut").write_text(NO_CUT)


def bare(executable, folder, secrets, turns):
    """The seconds of so many secrets in calls of check, on files that are there already."""
    calls = -(-secrets // 64)
    names = [f"s{number}" for number in range(64)]
    for name in names:
        (folder / name).write_bytes(os.urandom(4))
    begin = time.perf_counter()
    for _ in range(calls):
        words = [executable, "check", "program", "public", "cut", "0", *names, "--turns", str(turns)]
        subprocess.run(words, cwd=folder, check=True, stdout=subprocess.PIPE)
    return (time.perf_counter() - begin) * secrets / (64 * calls)


def swept(executable, folder, secrets, turns, jobs):
    """The seconds of a sweep, its processors' seconds, and both of its calls of check."""
    results = folder / f"results{jobs}"
    words = [sys.executable, SWEEP, "program", "public", "cut", "0", "--random", str(secrets), "--size", "4"]
    words += ["--flowcheck", executable, "--results", results, "--jobs", str(jobs), "--turns", str(turns)]
    begin = time.perf_counter()
    child = subprocess.Popen([str(word) for word in words], cwd=folder, stdout=subprocess.DEVNULL,
                             stderr=subprocess.DEVNULL)
    _, status, usage = os.wait4(child.pid, 0)
    seconds = time.perf_counter() - begin
    if status != 0:
        raise SystemExit(f"{words}: status {os.waitstatus_to_exitcode(status)}")
    calls = [call for path in (results / "answers").iterdir() for call in json.loads(path.read_text())["calls"]]
    return (seconds, usage.ru_utime + usage.ru_stime, sum(call["seconds"] for call in calls),
            sum(call["processor"] for call in calls))


def main():
    """Prints how many secrets a second sweeps judge."""
    parser = argparse.ArgumentParser(description=__doc__, formatter_class=argparse.RawDescriptionHelpFormatter)
    parser.add_argument("executable", type=os.path.abspath)
    parser.add_argument("--secrets", nargs=2, type=int, default=[20_000, 5_000])
    parser.add_argument("--jobs", type=int, default=os.cpu_count() or 1)
    args = parser.parse_args()
    executable = args.executable
    print(f"{'guest':>14} {'made by':12}{'secrets':>9}{'seconds':>9}{'a second':>10}   not check: clock, processors")
    for turns, secrets in zip((100, 100_000), args.secrets):
        with tempfile.TemporaryDirectory() as name:
            folder = pathlib.Path(name)
            assembled(executable, folder, turns)
            seconds = bare(executable, folder, secrets, turns)
            print(f"{turns:>8} turns {'bare calls':12}{secrets:>9}{seconds:>9.2f}{secrets / seconds:>10.1f}",
                  flush=True)
            for jobs in sorted({1, args.jobs}):
                seconds, processors, checking, checked = swept(executable, folder, secrets, turns, jobs)
                idle, other = 1 - checking / (jobs * seconds), 1 - checked / processors
                print(f"{turns:>8} turns {f'{jobs} at a time':12}{secrets:>9}{seconds:>9.2f}{secrets / seconds:>10.1f}"
                      f"{100 * idle:>13.1f} %{100 * other:>7.1f} %", flush=True)
    return 0


if __name__ == "__main__":
    sys.exit(main())
