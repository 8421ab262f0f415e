#!/usr/bin/env python3
"""measure.py EXECUTABLE [TURNS]

Times `measure` of the built program beside `check` of the same guest with the cut that was measured: a tight loop, the
same with 256 regions that it never enters, a loop through a region, a copy of memory byte by byte, each of about so
many turns (1,900,000 without the word), the tight loop of ten times as many, a loop that carries a secret byte through
60,000 points, a run whose graph has nearly as many points and links as a graph may have, a loop in which a point's
mask changes at every visit, once and of ten times as many rounds, 4,000,000 instructions in a row, a point that is
passed 1,000,000 times before it is secret, and a region with a range of 65,536 bytes that is entered 66,000 times,
whose `check` is left out.
Prints for each the turns of the run, the seconds of both commands, how many times as long `measure` took, and the most
memory that each had; of the last one the nanoseconds for each of the 4,325,376,000 visits of its point. Every other run
must be accepted with its own cut and number, and the cut of the point that turns secret must begin with its clean
visits. Linux with Python 3."""
import pathlib
import sys
import tempfile

from run import BASE, EXIT, EXIT_WORDS, Guest, beside_regions, copy_loop, prepare, region_loop, tight_loop
from timing import parser_of, timed

sys.path.append(str(pathlib.Path(__file__).resolve().parent.parent / "tools" / "model"))
from program_files import packed, plain_file

READ_A_BYTE = ["li a0, 3", "li a1, 0x80000", "li a2, 1", "li a7, 63", "ecall", "li a1, 0x80000", "lbu t1, 0(a1)"]


def carried(rounds, instructions):
    """Carries a secret byte through so many instructions, two points each, so many times."""
    lines = READ_A_BYTE + [f"li t0, {rounds}", "loop: addi t0, t0, -1"]
    lines += ["xori t1, t1, 1"] * instructions
    lines += ["beq t0, x0, out", "j loop", "out: addi a0, t1, 0", "addi a7, x0, 93", "ecall"]
    return Guest(lines, rounds * (instructions + 3) + 16)


def largest(stores, loads, instructions):
    """A secret byte goes through so many instructions, two points each, and is stored in so many places by a point
    each. So many loads then read each of these places in turn, so that each load is linked from each store."""
    lines = READ_A_BYTE + ["xori t1, t1, 1"] * instructions + ["li a2, 0x90000"]
    lines += [f"sb t1, {place}(a2)" for place in range(stores)]
    lines += ["li t0, 0x90000", f"li t4, {0x90000 + stores}", "li t3, 0", "loop: addi t0, t0, 1"]
    lines += ["lbu t2, -1(t0)", "xor t3, t3, t2"] * loads
    lines += ["beq t0, t4, out", "j loop", "out: addi a0, t3, 0", "addi a7, x0, 93", "ecall"]
    return Guest(lines, instructions + stores + stores * (2 * loads + 3) + 22)


def changing(rounds):
    """Two registers, one of them secret, change places in each round."""
    lines = READ_A_BYTE + [f"li t0, {rounds}", "loop: addi t0, t0, -1", "addi t3, t1, 0", "addi t1, t2, 0"]
    lines += ["addi t2, t3, 0", "bne t0, x0, loop", "addi a0, t1, 0", "addi a7, x0, 93", "ecall"]
    return Guest(lines, 5 * rounds + 16)


def turning_secret(rounds):
    """A register is copied so many times before it is secret, and then once more; of the secret one bit goes on."""
    lines = [f"li t0, {rounds}", "li t3, 0", "loop: andi t1, t2, 1", "addi t0, t0, -1", "bne t0, x0, loop"]
    lines += ["bne t3, x0, out"] + READ_A_BYTE[:-1] + ["lbu t2, 0(a1)", "li t3, 1", "li t0, 1", "j loop"]
    lines += ["out: addi a0, t1, 0", "addi a7, x0, 93", "ecall"]
    return Guest(lines, 3 * rounds + 32)


def straight(instructions):
    """So many instructions in a row, of which `asm` takes no source: the program itself."""
    code = packed([0x00130313]) * instructions + packed(EXIT_WORDS)
    return Guest([], instructions + 3, program=plain_file(code))


def wide_region(rounds):
    """Each round enters a region of one instruction, which declares 65,536 bytes, and leaves it."""
    lines = [f"li t0, {rounds}", "loop: addi t0, t0, -1", "addi x0, x0, 0", "bne t0, x0, loop"] + EXIT
    region = (
        f'{{"regions":[{{"id":1,"enter":"{BASE + 12:#x}","leave":"{BASE + 16:#x}","outs":[],"keep":[],'
        f'"ranges":[{{"offset":{BASE + 0x10000},"length":65536}}]}}]}}'
    )
    return Guest(lines, 5 * rounds + 5, region)


def measured_run(words, folder):
    """The seconds and the most memory of a `measure`, and the cut."""
    seconds, memory, status, cut = timed(words, folder)
    if status != 0:
        raise SystemExit(f"{words}: status {status}:\n{cut.decode()[:300]}")
    return seconds, memory, cut


def measure_and_check(executable, folder, guest):
    """Seconds and most memory of both commands, and the number."""
    paths, options = prepare(executable, folder, guest)
    words = [executable, "measure", paths["program"], paths["public"], paths["secret"]] + options
    measured, measure_memory, cut = measured_run(words, folder)
    pathlib.Path(paths["cut"]).write_bytes(cut)
    bits = cut.split(b"\nbits ")[1].split(b"\n")[0].decode()
    words = [executable, "check", paths["program"], paths["public"], paths["cut"], bits, paths["secret"]] + options
    checked, check_memory, status, text = timed(words, folder)
    if status != 0:
        raise SystemExit(f"{words}: status {status}:\n{text.decode()[:300]}")
    return measured, measure_memory, checked, check_memory, bits, cut


def measure_alone(executable, folder, guest):
    """Seconds and most memory of `measure`, and the cut."""
    paths, options = prepare(executable, folder, guest)
    return measured_run([executable, "measure", paths["program"], paths["public"], paths["secret"]] + options, folder)


def rows(turns):
    """The guests to be measured, by name, with about so many turns."""
    return [
        ("tight loop", tight_loop(turns // 2)),
        ("the same, ten times", tight_loop(5 * turns)),
        ("beside 256 regions", beside_regions(turns // 2)),
        ("loop through a region", region_loop(turns // 6, False)),
        ("copy of memory", copy_loop(max(1, turns // 327_688), 65_536)),
        ("60,000 points", carried(max(1, turns // 30_000), 30_000)),
        ("largest graph", largest(1_000, 983, 30_299)),
        ("changing masks", changing(turns // 50)),
        ("the same, ten times", changing(turns // 5)),
        ("4,000,000 in a row", straight(4_000_000)),
        ("clean, then secret", turning_secret(1_000_000)),
    ]


def main():
    """Prints the seconds and the memory of `measure` for each guest."""
    parser = parser_of(__doc__)
    parser.add_argument("turns", type=int, nargs="?", default=1_900_000, metavar="TURNS")
    words = parser.parse_args()
    executable, turns = words.executable, words.turns
    print(f"{'guest':24}{'turns':>12}{'bits':>6}{'measure':>10}{'check':>9}{'times':>7}{'memory of both':>22}")
    with tempfile.TemporaryDirectory() as folder:
        for name, guest in rows(turns):
            measured, most, checked, other, bits, cut = measure_and_check(executable, folder, guest)
            if name == "clean, then secret" and b" 1000000*0x00000000 " not in cut:
                raise SystemExit(f"the clean visits are missing:\n{cut.decode()[:300]}")
            print(
                f"{name:24}{guest.turns:>12}{bits:>6}{measured:>8.2f} s{checked:>7.2f} s{measured / checked:>7.2f}"
                f"{most / 1e6:>11.1f}, {other / 1e6:.1f} MB",
                flush=True,
            )
        guest = wide_region(66_000)
        measured, most, cut = measure_alone(executable, folder, guest)
        if b"\nbits 0\n" not in cut:
            raise SystemExit(f"the wide region is measured wrongly:\n{cut.decode()[:300]}")
        visits = 66_000 * 65_536
        print(
            f"{'range of 65,536 bytes':24}{guest.turns:>12}{'0':>6}{measured:>8.2f} s"
            f"{1e9 * measured / visits:>7.1f} ns a visit{most / 1e6:>11.1f} MB"
        )
    return 0


if __name__ == "__main__":
    sys.exit(main())
