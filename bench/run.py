#!/usr/bin/env python3
"""run.py EXECUTABLE

Times `check` of the built program over guests that it makes by `asm`: a tight loop, the same with 256 regions that it
never enters, a loop through a region that the replay runs, the same loop with the region skipped, a copy of memory
byte by byte, 64 secrets one after another, and one secret and 64 of a guest that exits at once.
Prints for each how many turns the real run makes, the seconds of the whole command, the nanoseconds for each turn of
both machines together, turns a second, and the most memory that the command had. Every check must accept its secrets.
Linux with Python 3."""
import os
import pathlib
import sys
import tempfile

from timing import parser_of, timed

EXIT = ["addi a0, x0, 0", "addi a7, x0, 93", "ecall"]
EXIT_WORDS = [0x00000513, 0x05D00893, 0x00000073]
BASE = 0x10000
NO_CUT = "flowcheck-cut 1\nsecret 1\nbits 0\n{}end\n"


class Guest:
    """A guest as the lines of a source, or as a program, with the turns that it makes and its region, if it has one."""

    def __init__(self, lines, turns, region=None, skipped=False, program=None):
        self.source = "\n".join(lines) + "\n"
        self.turns = turns
        self.region = region
        self.skipped = skipped
        self.program = program


def tight_loop(rounds):
    """A guest that counts down from a number."""
    lines = [f"li t0, {rounds}", "loop: addi t0, t0, -1", "bne t0, x0, loop"] + EXIT
    return Guest(lines, 2 * rounds + 5)


def region_loop(rounds, skipped):
    """Each round enters the region, makes two steps in it, and leaves it."""
    lines = [f"li t0, {rounds}", "loop: addi t0, t0, -1", "addi t1, t0, 1", "addi t1, t1, 1", "bne t0, x0, loop"] + EXIT
    region = (
        f'{{"regions":[{{"id":1,"enter":"{BASE + 12:#x}","leave":"{BASE + 20:#x}","outs":["t1"],"keep":["s0"],'
        f'"ranges":[{{"offset":{BASE + 0x2000},"length":4}}]}}]}}'
    )
    return Guest(lines, 6 * rounds + 5, region, skipped)


def beside_regions(rounds):
    """The tight loop, with 256 regions that it never enters."""
    regions = ",".join(
        f'{{"id":{1 + i},"enter":"{BASE + 0x1000 + 8 * i:#x}","leave":"{BASE + 0x1004 + 8 * i:#x}",'
        f'"outs":[],"keep":[],"ranges":[]}}'
        for i in range(256)
    )
    guest = tight_loop(rounds)
    guest.region = f'{{"regions":[{regions}]}}'
    return guest


def copy_loop(rounds, size):
    """Copies so many bytes, so many times."""
    lines = [f"li t0, {rounds}", "again: li t1, 0x20000", "li t2, 0x40000", f"li t3, {0x20000 + size}"]
    lines += ["loop: lbu t4, 0(t1)", "sb t4, 0(t2)", "addi t1, t1, 1", "addi t2, t2, 1", "bne t1, t3, loop"]
    lines += ["addi t0, t0, -1", "bne t0, x0, again"] + EXIT
    return Guest(lines, rounds * (8 + 5 * size) + 5)


def prepare(executable, folder, guest):
    """The paths of a guest's files, and the options; the secret has one byte, and no cut is written."""
    paths = {name: f"{folder}/{name}" for name in ("source", "program", "public", "cut", "regions", "secret")}
    if guest.program is None:
        pathlib.Path(paths["source"]).write_text(guest.source)
        _, _, status, _ = timed([executable, "asm", paths["source"]], folder)
        if status != 0:
            raise SystemExit(f"asm: status {status}, of the source:\n{guest.source[:300]}")
        os.replace(f"{folder}/put", paths["program"])
    else:
        pathlib.Path(paths["program"]).write_bytes(guest.program)
    pathlib.Path(paths["public"]).write_bytes(b"")
    pathlib.Path(paths["secret"]).write_bytes(b"\x0f")
    options = ["--turns", "20000000"]
    if guest.region:
        pathlib.Path(paths["regions"]).write_text(guest.region)
        options += ["--regions", paths["regions"]]
    return paths, options


def check(executable, folder, guest, secrets):
    """The seconds and the most memory of a check of so many secrets, all of which must be accepted."""
    paths, options = prepare(executable, folder, guest)
    pathlib.Path(paths["cut"]).write_text(NO_CUT.format("skip 1\n" if guest.skipped else ""))
    words = [executable, "check", paths["program"], paths["public"], paths["cut"], "0"]
    words += [paths["secret"]] * secrets + options
    seconds, memory, status, text = timed(words, folder)
    if status != 0 or f"accepted {secrets} ".encode() not in text:
        raise SystemExit(f"{words}: status {status}:\n{text.decode()}")
    return seconds, memory


def rows():
    """Each guest with its name and with how many secrets it is checked."""
    return [
        ("tight loop", tight_loop(9_999_990), 1),
        ("beside 256 regions", beside_regions(9_999_990), 1),
        ("loop through a region", region_loop(3_333_330, False), 1),
        ("the same, skipped", region_loop(3_333_330, True), 1),
        ("copy of memory", copy_loop(60, 65_536), 1),
        ("64 secrets", tight_loop(150_000), 64),
        ("exit at once", Guest(EXIT, 3), 1),
        ("the same, 64 secrets", Guest(EXIT, 3), 64),
    ]


def main():
    """Prints the seconds and the memory of `check` for each guest."""
    executable = parser_of(__doc__).parse_args().executable
    print(f"{'guest':24}{'turns':>12}{'seconds':>10}{'ns a turn':>11}{'turns a second':>16}{'memory':>10}")
    with tempfile.TemporaryDirectory() as folder:
        for name, guest, secrets in rows():
            seconds, memory = check(executable, folder, guest, secrets)
            turns = guest.turns * secrets
            print(
                f"{name:24}{turns:>12}{seconds:>10.2f}{1e9 * seconds / turns:>11.1f}{turns / seconds:>16,.0f}"
                f"{memory / 1e6:>7.1f} MB"
            )
    return 0


if __name__ == "__main__":
    sys.exit(main())
