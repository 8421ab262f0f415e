#!/usr/bin/env python3
"""Says what crates/run_rows must print of the rows of `bound` in its table, by the model of `tools/model`.

    python3 tools/tables/make_bound_rows.py

writes the end of the crate's `stdout`: these rows come last in the table, and what stands before their answers stays. A
row has `bound`, its name, the files of the program, the regions and the cut, the table of the mask rules, the limit of
turns, the budget and the limit of paths; the public input is empty. Python 3 only."""
import pathlib
import sys

TOOLS = pathlib.Path(__file__).resolve().parent.parent
sys.path.insert(0, str(TOOLS / "model"))

from bounds import Bounds, Task, counted
from cuts import read_cut, read_regions
from guest import Image

CRATE = TOOLS.parent / "crates" / "run_rows"


def content(name):
    """The bytes of a file of the table."""
    return (CRATE / "data" / name).read_bytes()


def bits_text(bits):
    """The bits of a path."""
    return "".join(map(str, bits))


def numbers_text(outputs):
    """A number of outputs, and how many bits it needs."""
    bits = (outputs - 1).bit_length() if outputs else 0
    return f"outputs {counted(outputs)} bits {bits}"


def lines_of(name, bounds):
    """The lines of an answer."""
    if bounds.unclear:
        return [f"{name}: unclear {bits_text(bounds.last)} {bounds.unclear.split(' ', 4)[4]}"]
    paths, stopped = counted(bounds.paths), counted(bounds.stopped)
    lines = [f"{name}: bounded paths {paths} stopped {stopped} {numbers_text(bounds.outputs())}"]
    for written, status, masks, mask in bounds.patterns:
        lines.append(f"  bytes {list(written)} status {status} masks {list(masks)} {mask}")
    if bounds.first:
        lines.append(f"  stopped {bits_text(bounds.stopped_at)} {bounds.first.split(' ', 5)[5]}")
    return lines


def answer(row):
    """The lines of the answer to the words of a row."""
    name, program, regions, cut, table, turns, budget, paths = row
    limits = int(budget), int(turns), int(paths)
    listed = read_regions(content(regions))
    task = Task(Image(content(program)), b"", listed, read_cut(content(cut)), int(table), *limits)
    return lines_of(name, Bounds(task))


def main():
    """Answers each row of `bound` and keeps the answers to the rows before."""
    rows = [line.split() for line in (CRATE / "stdin").read_text().splitlines()]
    rows = [words for table, *words in rows if table == "bound"]
    stdout = CRATE / "stdout"
    lines = stdout.read_text().splitlines()
    first = next((at for at, line in enumerate(lines) if line.startswith(f"{rows[0][0]}: ")), len(lines))
    answers = [line for row in rows for line in answer(row)]
    stdout.write_text("".join(f"{line}\n" for line in lines[:first] + answers))


if __name__ == "__main__":
    main()
