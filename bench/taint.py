#!/usr/bin/env python3
"""taint.py EXECUTABLE [TIMES | --instructions]

Times `taint` of the built program beside `check` of the same guest with the same cut: the guests of run.py, and a loop
that carries a secret byte through a thousand instructions and stores it in 2,000 places, of which every bit crosses at
the exit alone, so that masks are at work all the way. Each is run so many times (5 without the word), in turns, and the
least is taken. Prints for each the turns of the run, the seconds that a processor worked for both commands, how many
times as long `taint` took, and the most memory that each had. Every secret must be accepted and clean.

With --instructions it counts by valgrind the instructions of both commands, for about a tenth of the turns: that does
not depend on what else the machine does. Linux with Python 3."""
import pathlib
import sys
import tempfile
from functools import partial

from measure import READ_A_BYTE
from run import EXIT, NO_CUT, Guest, beside_regions, copy_loop, prepare, region_loop, tight_loop
from timing import counted_millions, in_turns, parser_of, timed, worked

LAST = "flowcheck-cut 1\nsecret 1\nbits 8\npoint 0 {} st rest 0x000000ff\nend\n"


def carried(rounds):
    """Carries a secret byte through 1,000 instructions, and stores it, in each round."""
    lines = READ_A_BYTE + [f"li t0, {rounds}", "li a2, 0x90000", "loop: addi t0, t0, -1"]
    lines += ["xori t1, t1, 1"] * 999 + ["addi a2, a2, 1", "sb t1, 0(a2)"]
    lines += ["beq t0, x0, out", "j loop", "out: addi a0, t1, 0", "addi a7, x0, 93", "ecall"]
    guest = Guest(lines, 1004 * rounds + 18)
    guest.is_secret = True
    return guest


def rows(turns):
    """Each guest of about so many turns with its name and with how many secrets it is checked."""
    return [
        ("tight loop", tight_loop(turns // 2), 1),
        ("the same, ten times", tight_loop(5 * turns), 1),
        ("beside 256 regions", beside_regions(turns // 2), 1),
        ("loop through a region", region_loop(turns // 6, False), 1),
        ("the same, skipped", region_loop(turns // 6, True), 1),
        ("copy of memory", copy_loop(1, min(turns // 5, 1_000_000)), 1),
        ("a secret, carried", carried(turns // 1_000), 1),
        ("64 secrets", tight_loop(turns // 128), 64),
        ("exit at once, 64 secrets", Guest(EXIT, 3), 64),
    ]


def cut_of(executable, folder, guest, program):
    """The cut of a guest, and its bits: none cross, or all of a carried secret at the exit."""
    if not getattr(guest, "is_secret", False):
        return NO_CUT.format("skip 1\n" if guest.skipped else ""), 0
    _, _, _, listing = timed([executable, "list", program], folder)
    return LAST.format(listing.decode().rstrip("\n").split("\n")[-1].split()[0]), 8


def checked(measure, command, word, secrets, folder):
    """What a check takes, and its most memory; every secret must have this word."""
    taken, memory, status, text = measure(command, folder)
    if status != 0 or f" {word} {secrets} ".encode() not in text:
        raise SystemExit(f"{command}: status {status}:\n{text.decode()[:300]}")
    return taken, memory


def both(executable, folder, guest, secrets, times, measure):
    """The least that `taint` and `check` take, and the most memory of each."""
    paths, options = prepare(executable, folder, guest)
    cut, bits = cut_of(executable, folder, guest, paths["program"])
    pathlib.Path(paths["cut"]).write_text(cut)
    words = [paths["program"], paths["public"], paths["cut"], str(bits), *[paths["secret"]] * secrets, *options]
    calls = [partial(checked, measure, [executable, command, *words], word, secrets, folder)
             for command, word in (("taint", "clean"), ("check", "accepted"))]
    return [(min(one[0] for one in tries), max(one[1] for one in tries)) for tries in in_turns(calls, times)]


def main():
    """Prints what `taint` costs beside `check`."""
    parser = parser_of(__doc__)
    parser.add_argument("times", type=int, nargs="?", default=5, metavar="TIMES")
    parser.add_argument("--instructions", action="store_true")
    words = parser.parse_args()
    executable, is_counting = words.executable, words.instructions
    times = 1 if is_counting else words.times
    turns, measure, unit = (200_000, counted_millions, "M") if is_counting else (1_900_000, worked, "s")
    print(f"{'guest':26}{'turns':>12}{'taint':>10}{'check':>10}{'times':>7}{'memory of both':>22}")
    with tempfile.TemporaryDirectory() as folder:
        for name, guest, secrets in rows(turns):
            (tainted, most), (plain, other) = both(executable, folder, guest, secrets, times, measure)
            memory = "" if is_counting else f"{most / 1e6:>11.1f}, {other / 1e6:.1f} MB"
            print(f"{name:26}{guest.turns * secrets:>12}{tainted:>8.2f} {unit}{plain:>8.2f} {unit}"
                  f"{tainted / plain:>7.2f}{memory}", flush=True)
    return 0


if __name__ == "__main__":
    sys.exit(main())
