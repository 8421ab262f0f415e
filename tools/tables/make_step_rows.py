#!/usr/bin/env python3
"""Makes the table `step` of crates/machine_rows from qemu's RV32IM.

It writes one free-standing assembler program, which runs each case and writes what it finds with the write call
of Linux for RISC-V, runs it under qemu-riscv32, and prints a line for each case on standard output:

    PC WORD X5 X6 X7 ADDRESS BEFORE -> NEXT X5 X6 X7 AFTER

in hexadecimal digits: the address and the word of the instruction, the registers x5, x6 and x7 before it, the
address of eight bytes of memory and these bytes as one number, the lowest first; and then where the guest went
on, the three registers and the eight bytes after it.

Every expected value is what qemu gave; the script computes none of them. The words are those of the assembler.
Each instruction runs in qemu at the very address that the table names, so results that depend on the program
counter stand as qemu gave them, and nothing is translated. At every address where a case may go on stands a
"pad", jal x30 to the recorder: NEXT is the link that the pad made, less the 4 bytes of the pad.
Cases that a guest does not get over (jumps to an address that is no multiple of 4, EBREAK, words that are no
instruction, accesses outside memory) raise a signal in qemu, and are not in the table.
"""
import struct
import subprocess
import sys
import tempfile
from pathlib import Path

BASE = 0x00010000  # guest memory: from here on
END = 0x01010000  # to here
ARENA = 0x00200000  # the instructions under test
NEAR = 0x00210000  # of them the branches and jumps
PLAIN = 0x002E0000  # those that go on to the next
MIDDLE = 0x00300000  # the jumps to the ends of their range
HARNESS = 0x02000000  # outside guest memory
EDGES = [0, 1, 2, 0xFFFFFFFF, 0x80000000, 0x7FFFFFFF, 0x80000001, 0x12345678, 0xDEADBEEF]
FEWER = [0, 1, 0xFFFFFFFF, 0x80000000, 0x7FFFFFFF, 0x12345678, 0xDEADBEEF]
KEPT = 0xA5C3960F  # x7, where it is no source
BYTES = 0x8877665544332211

OPS = "add sub sll slt sltu xor srl sra or and mul mulh mulhsu mulhu div divu rem remu".split()
SHIFTS = ["sll", "srl", "sra"]
IMMEDIATES = ["addi", "slti", "sltiu", "xori", "ori", "andi"]
IMMEDIATE_SHIFTS = ["slli", "srli", "srai"]
BRANCHES = "beq bne blt bge bltu bgeu".split()
LOADS = {"lb": 1, "lbu": 1, "lh": 2, "lhu": 2, "lw": 4}
STORES = {"sb": 1, "sh": 2, "sw": 4}

cases = []  # (pc, x5, x6, x7, address, bytes before)
code = {}  # what stands at an address
places = {"plain": PLAIN, "near": NEAR, "far": MIDDLE}


def put(address, text):
    """Places an instruction at an address."""
    assert address % 4 == 0 and BASE <= address < END and code.get(address, text) == text, (hex(address), text)
    code[address] = text


def case(text, x5=0, x6=0, x7=KEPT, address=BASE, before=0, area="plain", targets=()):
    """One run of an instruction; targets are the offsets at which it may go on beside 4."""
    pc = places[area]
    places[area] += 8
    put(pc, text)
    for offset in (4, *targets):
        put(pc + offset, "pad")
    cases.append((pc, x5, x6, x7, address, before))
    return pc


def register_cases():
    """Makes the cases of instructions with two registers."""
    for op in OPS:
        for x5 in EDGES:
            for x6 in EDGES:
                case(f"{op} x7,x5,x6", x5, x6)
        for registers in "x7,x5,x5 x0,x5,x6 x5,x5,x6 x6,x5,x6 x5,x5,x5 x7,x0,x6 x7,x5,x0 x7,x6,x5".split():
            for x5, x6 in [(0x80000000, 3), (0x89ABCDEF, 0xFFFFFFF6)]:
                case(f"{op} {registers}", x5, x6)
    for op in SHIFTS:
        for x5 in EDGES[1:]:
            for x6 in [31, 32, 33, 63, 0x7FFFFFE0, 0xFFFFFFE1]:
                case(f"{op} x7,x5,x6", x5, x6)


def immediate_cases():
    """Makes the cases of instructions with an immediate."""
    for op in IMMEDIATES:
        for immediate in [0, 1, -1, 2047, -2048, 1365, -1366]:
            for x5 in FEWER:
                case(f"{op} x7,x5,{immediate}", x5, 7)
    for op in IMMEDIATE_SHIFTS:
        for count in [0, 1, 2, 15, 16, 30, 31]:
            for x5 in FEWER:
                case(f"{op} x7,x5,{count}", x5, 7)
    for op in IMMEDIATES + IMMEDIATE_SHIFTS:
        for registers in ["x0,x5", "x5,x5", "x7,x0"]:
            case(f"{op} {registers},9", 0x87654321, 7)
    for op in ["lui", "auipc"]:
        for rd in ["x7", "x0", "x5"]:
            for immediate in [0, 1, 0x7FFFF, 0x80000, 0xFFFFF, 0x12345, 0xFFEFF, 0xFFF00]:
                case(f"{op} {rd},{immediate}", 5, 6)
    for word in [0x0FF0000F, 0x0000000F, 0x8330000F, 0x0100000F, 0x0330000F, 0x0FF2838F]:
        case(f".word {word:#x}", 5, 6)


def window(address):
    """The eight bytes round an access."""
    return min(max(address - 2, BASE), END - 8)


def memory_cases():
    """Makes the cases of loads and stores."""
    page = BASE + 4096
    for op, size in {**LOADS, **STORES}.items():
        is_load = op in LOADS
        near = [BASE + k for k in range(9)] + [page - k for k in range(5)] + [page + 1]
        near += [END - size - k for k in range(5)]
        for address in near:
            for before in [BYTES, 0xFF807F00FF807F01, 0x007F80FF007F80FE]:
                text = f"{op} x7,0(x5)" if is_load else f"{op} x6,0(x5)"
                case(text, address, 0xFEDCBA98 ^ before & 0xFFFFFFFF, KEPT, window(address), before)
        for immediate in [1, -1, 4, 1365, 2047, -2048]:
            address = page + 2
            text = f"{op} x7,{immediate}(x5)" if is_load else f"{op} x6,{immediate}(x5)"
            case(text, address - immediate, 0x80F1A2B3, KEPT, window(address), BYTES)
        others = ["x0,8(x5)", "x5,8(x5)", "x6,8(x5)"] if is_load else ["x0,8(x5)", "x5,8(x5)", "x7,8(x5)"]
        for operands in others:
            case(f"{op} {operands}", page - 8, 0x6C5D4E3F, KEPT, window(page), BYTES)


def branch_cases():
    """Makes the cases of branches."""
    for op in BRANCHES:
        for x5 in FEWER:
            for x6 in FEWER:
                case(f"{op} x5,x6,.+12", x5, x6, area="near", targets=[12])
        for operands in ["x5,x5", "x0,x5", "x5,x0", "x0,x0"]:
            case(f"{op} {operands},.+20", 0x80000000, 1, area="near", targets=[20])
    for offset in [-4096, 4092, -2048, 2048, -4, 8]:
        places["near"] += 0x4000 - places["near"] % 0x4000 + 0x1000
        for op in BRANCHES:
            for x5, x6 in [(1, 1), (1, 2), (2, 1), (0xFFFFFFFF, 1), (1, 0xFFFFFFFF)]:
                places["near"] += 8
                case(f"{op} x5,x6,.{offset:+d}", x5, x6, area="near", targets=[offset])


def jump_cases():
    """Makes the cases of jumps."""
    places["near"] += 0x4000 - places["near"] % 0x4000 + 0x1000
    for offset in [4, 8, 12, -4, -12, 2044, -2044, 2048, -2048, 4096, -4096]:
        places["near"] += 0x4000 - places["near"] % 0x4000 + 0x1000
        for rd in ["x7", "x0", "x5"]:
            places["near"] += 16
            case(f"jal {rd},.{offset:+d}", 5, 6, area="near", targets=[offset])
    for offset in [0xFFFFC, -0x100000, 0x80000, -0x80000]:
        for rd in ["x7", "x0", "x5"]:
            case(f"jal {rd},.{offset:+d}", 5, 6, area="far", targets=[offset])
    for immediate in [0, 1, -1, 2, 5, 2047, -2048, -2047]:
        for odd in [0, 1]:
            for offset in [12, -12, 8000, -8000]:
                for rd in ["x7", "x0", "x5"]:
                    places["near"] += 24
                    x5 = places["near"] + offset + odd - immediate
                    case(f"jalr {rd},{immediate}(x5)", x5, 6, area="near", targets=[offset])
    for offset in [16, -16]:
        places["near"] += 24
        case("jalr x6,0(x6)", 5, places["near"] + offset, area="near", targets=[offset])


def program():
    """The text of the assembler program."""
    lines = [".option norvc", ".option norelax"]
    lines += ['.section .low,"aw",@progbits', ".zero 0x2000", '.section .top,"aw",@progbits', ".zero 0x2000"]
    lines += ['.section .arena,"awx",@progbits']
    hops = [MIDDLE - 64, MIDDLE + 0x1000]
    for number, hop in enumerate(hops):
        put(hop, f"hop{number}: lui x31,%hi(recorder)")
        put(hop + 4, "jalr x0,%lo(recorder)(x31)")
    for address in sorted(code):
        text = code[address]
        if text == "pad":
            text = "jal x30,hop0" if address < MIDDLE else "jal x30,hop1"
        lines += [f".org {address - ARENA:#x}", text]
    lines += ['.section .text', ".globl _start", HARNESS_CODE.replace("SIZE", str(40 * len(cases)))]
    lines += [".section .data", ".balign 4", "cases:"]
    for pc, x5, x6, x7, address, before in cases:
        numbers = [pc, x5, x6, x7, address, before & 0xFFFFFFFF, before >> 32]
        lines.append(".word " + ",".join(f"{number & 0xFFFFFFFF:#x}" for number in numbers))
    lines += ["cases_end:", ".section .bss", ".balign 4", "found:", f".zero {40 * len(cases)}", ""]
    return "\n".join(lines)


# x8 goes over the cases and x9 over what is found: the word, NEXT, x5, x6, x7, the eight bytes after, two words of 0
HARNESS_CODE = """
_start:
    la x8,cases
    la x9,found
round:
    la x10,cases_end
    bgeu x8,x10,done
    lw x11,16(x8)
    .irp k,0,1,2,3,4,5,6,7
    lbu x12,20+\\k(x8)
    sb x12,\\k(x11)
    .endr
    lw x29,0(x8)
    lw x12,0(x29)
    sw x12,0(x9)
    lw x5,4(x8)
    lw x6,8(x8)
    lw x7,12(x8)
    jalr x0,0(x29)
recorder:
    addi x30,x30,-4
    sw x30,4(x9)
    sw x5,8(x9)
    sw x6,12(x9)
    sw x7,16(x9)
    lw x11,16(x8)
    .irp k,0,1,2,3,4,5,6,7
    lbu x12,\\k(x11)
    sb x12,20+\\k(x9)
    .endr
    addi x8,x8,28
    addi x9,x9,40
    j round
done:
    la x18,found
    li x19,SIZE
more:
    beqz x19,exit
    li x10,1
    mv x11,x18
    mv x12,x19
    li x17,64
    ecall
    blez x10,fail
    add x18,x18,x10
    sub x19,x19,x10
    j more
exit:
    li x10,0
    li x17,93
    ecall
fail:
    li x10,1
    li x17,93
    ecall
"""


def run():
    """What the program writes under qemu."""
    with tempfile.TemporaryDirectory() as folder:
        source, made, linked = (str(Path(folder) / name) for name in ["cases.s", "cases.o", "cases"])
        Path(source).write_text(program())
        subprocess.run(["riscv64-unknown-elf-as", "-march=rv32im", "-mabi=ilp32", "-o", made, source], check=True)
        starts = [f"--section-start={name}={address:#x}" for name, address in [
            (".low", BASE), (".arena", ARENA), (".top", END - 0x2000), (".text", HARNESS)]]
        subprocess.run(["riscv64-unknown-elf-ld", "-m", "elf32lriscv", "--no-relax", "--no-warn-rwx-segments",
                        "-Tdata=0x02100000", "-Tbss=0x02200000", *starts, "-o", linked, made], check=True)
        return subprocess.run(["qemu-riscv32", linked], check=True, stdout=subprocess.PIPE).stdout


def main():
    """Prints the table."""
    register_cases()
    immediate_cases()
    memory_cases()
    branch_cases()
    jump_cases()
    found = run()
    assert len(found) == 40 * len(cases)
    for index, (pc, x5, x6, x7, address, before) in enumerate(cases):
        word, onward, after5, after6, after7, low, high = struct.unpack_from("<7I", found, 40 * index)
        given = " ".join(f"{number & 0xFFFFFFFF:x}" for number in [pc, word, x5, x6, x7, address])
        wanted = " ".join(f"{number:x}" for number in [onward, after5, after6, after7])
        print(f"{given} {before:x} -> {wanted} {high << 32 | low:x}")
    mnemonics = {text.split()[0] for text in code.values() if not text.startswith(("pad", "hop", "jalr x0,%"))}
    names = " ".join(sorted(mnemonics))
    print(f"{len(cases)} cases, {len(mnemonics)} mnemonics (FENCE as .word): {names}", file=sys.stderr)


if __name__ == "__main__":
    main()
