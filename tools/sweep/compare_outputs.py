#!/usr/bin/env python3
"""compare_outputs.py RESULTS [--count N] [--seed N]

Runs N accepted secrets of a sweep (1,000 without the option; the first of each crossing, the others at random) under
qemu-riscv32 (Debian qemu-user) on the program and the public input of the sweep. Secrets with equal crossings must have
equal outputs, bytes and exit status, of the length and status that `check` printed; so there are no more different
outputs than different crossings. Prints the counts, with status 1 where a secret differs."""
import argparse
import csv
import json
import os
import pathlib
import random
import shutil
import subprocess
import sys
import tempfile

from batch import secrets_of

MOST_TOLD, MOST_SHOWN = 10, 40


def accepted_rows(results):
    """The rows of the accepted secrets of a sweep."""
    with open(results / "verdicts.csv", newline="", encoding="utf-8") as file:
        return [row for row in csv.DictReader(file) if row["verdict"] == "accepted"]


def crossing_of(row):
    """The bits that crossed, of a row."""
    return row["bits"], row["crossing"]


def chosen(rows, count, seed):
    """The first row of each crossing and others at random, in the order of the sweep."""
    firsts = {}
    for at, row in enumerate(rows):
        firsts.setdefault(crossing_of(row), at)
    first = set(list(firsts.values())[:count])
    others = [at for at in range(len(rows)) if at not in first]
    more = random.Random(seed).sample(others, min(count - len(first), len(others)))
    return [rows[at] for at in sorted(first.union(more))]


class Secrets:
    """The secrets of a sweep by their numbers."""

    def __init__(self, results):
        self.results = results
        self.batch = json.loads((results / "manifest.json").read_text())["batch"]
        self.number, self.taken = None, []

    def get(self, number):
        batch = 1 + (number - 1) // self.batch
        if batch != self.number:
            self.number, self.taken = batch, secrets_of((self.results / "batches" / f"{batch:06}").read_bytes())
        return self.taken[(number - 1) % self.batch]


def output_of(program, public, secret):
    """The bytes and the exit status of the guest under qemu."""
    reader, writer = os.pipe()
    os.write(writer, secret)
    os.close(writer)
    os.dup2(reader, 3)
    os.close(reader)
    ended = subprocess.run(["qemu-riscv32", program], input=public, stdout=subprocess.PIPE, pass_fds=[3])
    return ended.stdout, ended.returncode


def output_text(content):
    """An output, of which only the first bytes are shown where it is long."""
    more = len(content) - MOST_SHOWN
    return f"{content[:MOST_SHOWN]!r}" + (f" and {more:,} byte{'s' * (more > 1)} more" if more > 0 else "")


def compare(results, rows, program):
    """The output of each crossing, and how many secrets have another output than the first, or than check says."""
    secrets, public = Secrets(results), (results / "files" / "public").read_bytes()
    outputs, failed = {}, 0
    for row in rows:
        output = output_of(program, public, secrets.get(int(row["number"])))
        first = outputs.setdefault(crossing_of(row), output)
        if output != first or (len(output[0]), output[1]) != (int(row["output"]), int(row["status"])):
            failed += 1
            if failed <= MOST_TOLD:
                seen, earlier = (f"{output_text(content)} status {status}" for content, status in (output, first))
                print(f"secret {row['number']}, crossing {row['crossing']}: {seen}, and of the first {earlier}")
    return outputs, failed


def main():
    """Compares outputs with crossings; the status, 1 where some contradict."""
    parser = argparse.ArgumentParser(description=__doc__, formatter_class=argparse.RawDescriptionHelpFormatter)
    parser.add_argument("results", type=pathlib.Path)
    parser.add_argument("--count", type=int, default=1000)
    parser.add_argument("--seed", type=int, default=1)
    args = parser.parse_args()
    os.dup2(os.open("/dev/null", os.O_RDONLY), 3)
    rows = chosen(accepted_rows(args.results), args.count, args.seed)
    with tempfile.TemporaryDirectory() as folder:
        program = os.path.join(folder, "program")
        shutil.copyfile(args.results / "files" / "program", program)
        os.chmod(program, 0o700)
        outputs, failed = compare(args.results, rows, program)
    different = len(set(outputs.values()))
    for (bits, crossing), (content, status) in sorted(outputs.items()):
        print(f"bits {bits} crossing {crossing}: {output_text(content)} status {status}")
    print(f"{len(rows)} secrets, {len(outputs)} different crossings, {different} different outputs, {failed} differ")
    return int(failed > 0 or different > len(outputs))


if __name__ == "__main__":
    sys.exit(main())
