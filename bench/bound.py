#!/usr/bin/env python3
"""bound.py EXECUTABLE [TIMES] [--against OTHER]

Times `bound` of the built program. First over guests with many paths all of which are walked: 65,536 walks of about
1,000 turns and 1,048,576 of about 200. The bits are chosen where they are read, before all other turns, or at last,
behind a loop; or one by one, spread evenly over the run, so that a walk makes again what lies behind its last choice
alone. All paths have one output, or each has its own. Then over guests whose paths come to the same states: the median
of bytes that are sorted, the check digit of a card, whether each of 64 records has three others like it, a guest that
changes 64 KiB before it chooses, and two that change 1 KiB and have as many states as paths, the one before it chooses
and the other anew behind each choice.

Each is run so many times (once without the word), in turns, and the least is taken. Prints for each guest the paths,
the outputs, the seconds that a processor worked for the command and the most memory that it had; of guests all of whose
paths are walked also the turns of a path, the microseconds for a walk and the nanoseconds for a turn. With another
program its seconds and memory stand beside them, where it can walk each path. Every answer must be bounded, with as
many paths and outputs as there are. Linux with Python 3."""
import math
import pathlib
import sys
import tempfile
from functools import partial

from run import EXIT, Guest, prepare
from timing import in_turns, parser_of, program, timed, worked

REGISTERS = ["t1", "t2", "t3"]
MOST_WALKS = 1 << 20


def call(number, first, count):
    """A call with so many bytes at 0x80000."""
    return [f"li a0, {first}", "li a1, 0x80000", f"li a2, {count}", f"li a7, {number}", "ecall"]


def chosen(bits, turns, is_shown):
    """Reads so many secret bits, spins, passes them on, and writes them where they are to be shown."""
    registers = REGISTERS[: (bits + 7) // 8]
    lines = call(63, 3, len(registers)) + ["li a1, 0x80000"]
    lines += [f"lbu {register}, {place}(a1)" for place, register in enumerate(registers)]
    lines += [f"andi {registers[-1]}, {registers[-1]}, {255 >> -bits % 8}"]
    lines += [f"li t0, {(turns - 40) // 2}", "loop: addi t0, t0, -1", "bne t0, x0, loop"]
    lines += [f"xori {register}, {register}, 0" for register in registers]
    if is_shown:
        lines += ["li a1, 0x80000"]
        lines += [f"sb {register}, {place}(a1)" for place, register in enumerate(registers)]
        lines += call(64, 1, len(registers))
    return Guest(lines + EXIT, turns)


class Row:
    """A guest and what `bound` must say of it. A point is (mnemonic, number, slot, masks): at each instruction of that
    name, or at the one with that number. `walked` are the turns of a path where each path is walked, or 0."""

    def __init__(self, name, guest, secret, bits, points, paths, outputs, walked=0):
        self.name, self.guest, self.secret, self.bits, self.points = name, guest, secret, bits, points
        self.paths, self.outputs, self.walked = paths, outputs, walked

    def line(self):
        """The last line of the answer."""
        paths, bits = self.paths if self.paths < 1 << 64 else "-", (self.outputs - 1).bit_length()
        return f"bounded secret {self.secret} regions 0 paths {paths} stopped 0 outputs {self.outputs} bits {bits}\n"

    def cut(self, executable, folder, program_path):
        """The text of the cut."""
        _, _, _, listing = timed([executable, "list", program_path], folder)
        lines, points = listing.decode().splitlines(), []
        for name, number, slot, masks in self.points:
            places = [line.split()[0] for line in lines if f" {name}" in line]
            for place in places if number is None else [places[number]]:
                points.append(f"point 0 {place} {slot} {masks}")
        return "\n".join(["flowcheck-cut 1", f"secret {self.secret}", f"bits {self.bits}", *sorted(points), "end", ""])


def chosen_row(bits, turns, is_shown, is_late):
    """Bits that are chosen where they are read, or at last."""
    count, last = (bits + 7) // 8, f"0x{255 >> -bits % 8:08x}"
    if is_late:
        masks = ["0x000000ff"] * (count - 1) + [last] * (count > 0)
        points = [("xori", place, "rs", f"rest {mask}") for place, mask in enumerate(masks)]
    else:
        listed = "" if bits % 8 == 0 else f"{count - 1}*0x000000ff "
        points = [("ecall", 0, "in", f"{listed}rest {last}")]
    name, outputs = "at last" if is_late else "as they are read", 1 << bits if is_shown else 1
    return Row(name, chosen(bits, turns, is_shown), count, bits, points, 1 << bits, outputs, turns)


def filled(size):
    """Changes so many bytes at 0x90000, each word to its address and what s3 is."""
    return ["li t5, 0x90000", f"li t6, {0x90000 + size}", "fill: add t4, t5, s3", "sw t4, 0(t5)", "addi t5, t5, 4",
            "bne t5, t6, fill"]


def each_bit(count, behind):
    """Reads so many secret bytes, lets the lowest bit of each cross, and makes these lines behind each."""
    lines = call(63, 3, count) + ["li s1, 0x80000", f"li s2, {0x80000 + count}", "next: lbu t1, 0(s1)",
                                  "andi t1, t1, 1"]
    return [*lines, *behind, "addi s1, s1, 1", "bne s1, s2, next"]


def spread_row():
    """Sixteen choices spread evenly over 1,000 turns, each of which stays known."""
    spin = ["add s3, s3, s3", "add s3, s3, t1", "li t0, 27", "loop: addi t0, t0, -1", "bne t0, x0, loop"]
    shown = ["li a1, 0x80000", "sh s3, 0(a1)", *call(64, 1, 2)]
    guest = Guest(each_bit(16, spin) + shown + EXIT, 1_000)
    return Row("spread evenly", guest, 16, 16, [("andi", None, "rs", "rest 0x00000001")], 1 << 16, 1 << 16, 1_000)


def count_row(count, size):
    """Counts the bytes that are odd, behind so many bytes that are changed."""
    lines = ["li s3, 0", *filled(size), *each_bit(count, ["add s3, s3, t1"]), "addi a0, s3, 0", *EXIT[1:]]
    points = [("andi", None, "rs", "rest 0x00000001")]
    name = f"{size >> 10} KiB, then {count} bits"
    return Row(name, Guest(lines, 0), count, count, points, 1 << count, count + 1)


def states_row(is_anew):
    """Sixteen choices that stay known, and 1 KiB that is changed before them or behind each."""
    known, fill = ["add s3, s3, s3", "add s3, s3, t1"], filled(1024)
    lines = ["li s3, 0", *([] if is_anew else fill), *each_bit(16, known + (fill if is_anew else []))]
    points = [("andi", None, "rs", "rest 0x00000001")]
    name = "1 KiB anew" if is_anew else "1 KiB before"
    return Row(f"{name}, 16 bits", Guest(lines + EXIT, 0), 16, 16, points, 1 << 16, 1)


def median_row(count):
    """Sorts secret bytes in their place and writes the middle one."""
    lines = call(63, 3, count) + ["li s0, 0x80000", "li s1, 0x80001", f"li s2, {0x80000 + count}",
                                  "next: addi s3, s1, 0"]
    lines += ["swap: beq s3, s0, sorted", "lbu t1, -1(s3)", "lbu t2, 0(s3)", "bgeu t2, t1, sorted", "sb t2, -1(s3)"]
    lines += ["sb t1, 0(s3)", "addi s3, s3, -1", "jal x0, swap", "sorted: addi s1, s1, 1", "bne s1, s2, next"]
    lines += ["li a0, 1", f"li a1, {0x80000 + count // 2}", "li a2, 1", "li a7, 64", "ecall", *EXIT]
    points = [("bgeu", None, "de", "rest 0x00000001"), ("ecall", 1, "ou", "rest 0x000000ff")]
    bits = count * (count - 1) // 2 + 8
    return Row(f"median of {count}", Guest(lines, 0), count, bits, points, math.factorial(count), 256)


def card_row(count):
    """The check digit of a card: each second digit is doubled, less 9 where that is above 9; the sum, less 10 where it
    is above 9, must be 0 at last. Exits with 0, with 1, or with 2 where one is no digit."""
    lines = call(63, 3, count) + ["li s1, 0x80000", f"li s2, {0x80000 + count}", "li t5, 10", "li t2, 0", "li t3, 0"]
    lines += ["next: lbu t1, 0(s1)", "addi t1, t1, -48", "bgeu t1, t5, other", "xori t3, t3, 1", "beq t3, x0, single"]
    lines += ["add t1, t1, t1", "bltu t1, t5, single", "addi t1, t1, -9", "single: add t2, t2, t1"]
    lines += ["bltu t2, t5, below", "addi t2, t2, -10", "below: addi s1, s1, 1", "bne s1, s2, next"]
    lines += ["bltu x0, t2, wrong"]
    lines += EXIT + ["wrong: li a0, 1", *EXIT[1:], "other: li a0, 2", *EXIT[1:]]
    points = [(name, None, "de", "rest 0x00000001") for name in ("bgeu", "bltu")]
    bits, paths = 2 * count + (count + 1) // 2 + 1, 2
    for place in reversed(range(count)):
        paths = 1 + (2 if place % 2 else 4) * paths
    return Row(f"card of {count}", Guest(lines, 0), count, bits, points, paths, 3)


def records_row(count, classes):
    """Of how many classes there are some records, but fewer than four: that is where one has not three others like
    it."""
    lines = call(63, 3, count) + ["li s0, 0", "li s4, 0", f"li s5, {classes}", "li t2, 4"]
    lines += ["class: li s1, 0x80000", f"li s2, {0x80000 + count}", "li s3, 0", "next: lbu t1, 0(s1)", "xor t1, t1, s0"]
    lines += ["bgeu x0, t1, alike", "jal x0, other", "alike: beq s3, t2, other", "addi s3, s3, 1"]
    lines += ["other: addi s1, s1, 1", "bne s1, s2, next", "beq s3, x0, enough", "beq s3, t2, enough", "addi s4, s4, 1"]
    lines += ["enough: addi s0, s0, 1", "bne s0, s5, class", "addi a0, s4, 0", *EXIT[1:]]
    bits, points = count * classes, [("bgeu", None, "de", "rest 0x00000001")]
    return Row(f"{count} records", Guest(lines, 0), count, bits, points, 1 << bits, classes + 1)


def rows():
    """All guests."""
    for bits, turns in [(16, 1_000), (20, 200)]:
        for is_late in (False, True):
            for is_shown in (False, True):
                yield chosen_row(bits, turns, is_shown, is_late)
    yield spread_row()
    yield from [median_row(15), median_row(30), card_row(16), records_row(64, 6), count_row(44, 65_536)]
    yield from [states_row(False), states_row(True)]


def bounded(executable, folder, row, path):
    """The seconds and the memory of a guest's bound."""
    words = [executable, "bound", path, f"{folder}/public", f"{folder}/cut", str(row.bits), "--turns", "1000000"]
    words += ["--paths", str(min(max(row.paths, 1 << 16), MOST_WALKS))]
    seconds, memory, status, text = worked(words, folder)
    if status != 0 or text.decode() != row.line():
        raise SystemExit(f"{row.name}: {words}: status {status}:\n{text.decode()[:300]}for\n{row.line()}")
    return seconds, memory


def timed_row(programs, folder, row, times):
    """Of each program that can answer the least seconds of a guest's bound, and the most memory."""
    paths, _ = prepare(programs[0], folder, row.guest)
    pathlib.Path(paths["cut"]).write_text(row.cut(programs[0], folder, paths["program"]))
    able = programs if row.paths <= MOST_WALKS else programs[:1]
    tries = in_turns([partial(bounded, one, folder, row, paths["program"]) for one in able], times)
    return [(min(one[0] for one in found), max(one[1] for one in found)) for found in tries]


def number_text(number):
    """A number of paths in at most ten columns."""
    if number < 10**9:
        return str(number)
    return f"{number:.1e}" if number < 10**300 else f"2^{number.bit_length() - 1}"


def main():
    """Times `bound` over the guests."""
    parser = parser_of(__doc__)
    parser.add_argument("times", type=int, nargs="?", default=1, metavar="TIMES")
    parser.add_argument("--against", type=program, metavar="OTHER")
    words = parser.parse_args()
    programs = [words.executable] + ([words.against] if words.against else [])
    heads = f"{'seconds':>10}{'memory':>12}" * len(programs)
    print(f"{'bits are chosen':22}{'outputs':>10}{'paths':>10}{heads}{'turns':>7}{'a walk':>11}{'a turn':>9}")
    with tempfile.TemporaryDirectory() as folder:
        for row in rows():
            found = timed_row(programs, folder, row, words.times)
            texts = [f"{seconds:>8.2f} s{memory / 1e6:>9.1f} MB" for seconds, memory in found]
            texts += [f"{'-':>10}{'-':>12}"] * (len(programs) - len(found))
            each = ""
            if row.walked:
                walk = found[0][0] / row.paths
                each = f"{row.walked:>7}{1e6 * walk:>8.2f} us{1e9 * walk / row.walked:>6.1f} ns"
            print(f"{row.name:22}{row.outputs:>10}{number_text(row.paths):>10}{''.join(texts)}{each}", flush=True)
    return 0


if __name__ == "__main__":
    sys.exit(main())
