#!/usr/bin/env python3
"""Says what crates/machine_rows must print of its table `compiled`, which it reads.

Runs each guest that a line of standard input names under qemu-riscv32, on the secret and the public input of the line,
and writes the line with the number of bytes that the guest wrote and its exit status. A line is PROGRAM CUT SECRET
PUBLIC; the cut is passed over, and a dash stands for an empty input."""
import os
import subprocess
import sys

TOP = os.path.dirname(os.path.dirname(os.path.dirname(os.path.abspath(__file__))))
DATA = os.path.join(TOP, "crates", "machine_rows", "data")


def input_of(word):
    """The bytes of a word; a dash is none."""
    return b"" if word == "-" else word.encode()


def reader_of(content):
    """A pipe from which these bytes are read."""
    reader, writer = os.pipe()
    os.write(writer, content)
    os.close(writer)
    return reader


def run(program, secret, public):
    """The run of a guest by qemu."""
    os.dup2(reader_of(secret), 3)
    command = ["qemu-riscv32", os.path.join(DATA, program)]
    return subprocess.run(command, input=public, stdout=subprocess.PIPE, pass_fds=[3])


def main():
    """Prints what the guests of standard input write."""
    for line in sys.stdin:
        program, _cut, secret, public = line.split()
        ended = run(program, input_of(secret), input_of(public))
        print(f"{line.strip()}: output {len(ended.stdout)} status {ended.returncode}")


main()
