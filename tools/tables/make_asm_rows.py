#!/usr/bin/env python3
"""Makes the table `asm` of crates/file_rows from GNU as.

It prints a line for each case on standard output:

    SOURCE -> WORD WORD ..

SOURCE is a source of this repository's assembler, in which a semicolon stands for the end of a line. The words are
those that GNU as and ld make of it, with the program at 0x00010000, in 8 hexadecimal digits each; the script computes
none of them. No compressed instruction is made (-march=rv32im), and the linker relaxes nothing (.option norelax).

GNU as gets the same text without comments and with other blanks, but for these forms, which it spells otherwise:

    beq a0, a1, -8         a target that is a number is the offset from the instruction: `beq a0, a1, . + -8`
    fence rd, rs1, imm     every field of the instruction is written out: `.insn i 0x0f, 0, rd, rs1, imm`
    la a0, label           always LUI and ADDI: `lui a0, %hi(label)` and `addi a0, a0, %lo(label)`

The numbers of li are such that GNU as makes LUI and ADDI of it, as this assembler always does: neither the lower 12
bits are 0 nor does the number fit these 12 bits. No number has leading zeros, which GNU as reads in base 8.

Behind them stand rows whose words were found by hand, and rows `SOURCE => FAULT` of sources that are refused; last rows
`SOURCE == LISTING`, a line of each mnemonic as listings print it, with the word that GNU as makes of it, and what must
be listed. Needs riscv64-unknown-elf-as, -ld and -objcopy."""
import re
import struct
import subprocess
import sys
import tempfile
from pathlib import Path

TOOLS = "riscv64-unknown-elf-"
PLAIN = [f"x{n}" for n in range(32)]
CONVENTION = (
    "zero ra sp gp tp t0 t1 t2 s0 s1 a0 a1 a2 a3 a4 a5 a6 a7 s2 s3 s4 s5 s6 s7 s8 s9 s10 s11 t3 t4 t5 t6".split()
)
BRANCHES = "beq bne blt bge bltu bgeu".split()
LOADS = "lb lh lw lbu lhu".split()
STORES = "sb sh sw".split()
IMMEDIATES = "addi slti sltiu xori ori andi".split()
SHIFTS = "slli srli srai".split()
OPERATIONS = (
    "add sub sll slt sltu xor srl sra or and mul mulh mulhsu mulhu div divu rem remu".split()
)

# A label of 64 bytes.
LONGEST = "a23456789_123456789_123456789_123456789_123456789_123456789_1234"

# The rows whose words or fault were found by hand.
BY_HAND = [
    "li a0, 0x12345fff -> 12346537 fff50513",
    "loop: j loop -> 0000006f",
    "addi a0, x0, 0;addi a7, x0, 93;ecall; -> 00000513 05d00893 00000073",
    " \t a: \t .word\t-0x00000000001 \t# \u00e9 -> ffffffff",
    ".byte -128;.byte 255;.zero 2;la x1,b;b: -> 0000ff80 000100b7 00c08093",
    "sw fp,-4(sp);ret -> fe812e23 00008067",
    f"{LONGEST}: j {LONGEST} -> 0000006f",
    f"{LONGEST}5: nop => line 1 kind 1",
    " => line 0 kind 4",
    "a: => line 0 kind 4",
    "addi a0, x0, 4096 => range 1",
    "addi a0,a0,4294967296 => line 1 kind 1",
    "addi a0,a0,4294967295 => range 1",
    "addi a0,a0,99999999999999999999999999999999999999999999 => line 1 kind 1",
    "a:nop => line 1 kind 1",
    "a : nop => line 1 kind 1",
    "a: b: nop => line 1 kind 1",
    "lw a0, 4 (sp) => line 1 kind 1",
    "lw a0, 4( sp ) => line 1 kind 1",
    "lw a0, (sp) => line 1 kind 1",
    "nop\r; => line 1 kind 1",
    "li a0, x => line 1 kind 1",
    "la a0, 5 => line 1 kind 1",
    "a:;a: nop => label-twice 2",
    "j nowhere => label-missing 1",
    ".byte 1;nop => line 2 kind 2",
    ".zero 1048577 => range 1",
    ".zero 1048576;nop => line 2 kind 3",
    ".zero 1048576;.byte 1 => line 2 kind 3",
    "j far;far: bad => line 2 kind 1",
    "beq x0,x0,far;.zero 8000;bad;far: => line 3 kind 1",
    "beq x0,x0,far;.zero 8000;far: nop => range 1",
    "beq x0,x0,odd;.byte 1;odd: => range 1",
    "a:;.byte 1;a: nop => line 3 kind 2",
    "beq a0, a1, b;.zero 1;j a;;b: => line 3 kind 2",
    "b: beq x0,x0,far;.zero 8000;beq x0,x0,b;far: => range 3",
]

LISTED = [
    "add x1, x2, x31", "sub x2, x3, x30", "sll x3, x4, x29", "slt x4, x5, x28", "sltu x5, x6, x27",
    "xor x6, x7, x26", "srl x7, x8, x25", "sra x8, x9, x24", "or x9, x10, x23", "and x10, x11, x22",
    "mul x11, x12, x21", "mulh x12, x13, x20", "mulhsu x13, x14, x19", "mulhu x14, x15, x18", "div x15, x16, x17",
    "divu x16, x17, x16", "rem x17, x18, x15", "remu x18, x19, x14", "addi x5, x6, -2048", "slti x5, x6, 2047",
    "sltiu x5, x6, -1", "xori x5, x6, 1", "ori x5, x6, 1000", "andi x5, x6, -1000", "slli x7, x8, 0",
    "srli x7, x8, 31", "srai x7, x8, 7", "lb x9, -2048(x10)", "lh x9, 2047(x10)", "lw x9, 0(x10)", "lbu x9, 4(x10)",
    "lhu x9, -4(x10)", "sb x11, -2048(x12)", "sh x11, 2047(x12)", "sw x11, 8(x12)", "beq x13, x0, -4096",
    "bne x13, x0, 4094", "blt x13, x0, 8", "bge x13, x0, -8", "bltu x13, x0, 12", "bgeu x13, x0, 0",
    "lui x14, 1048575", "auipc x15, 0", "jal x1, -1048576", "jal x0, 1048574", "jalr x0, 0(x1)", "fence x0, x0, 255",
    "ecall", "ebreak",
]
"""A line of each mnemonic, as listings print it."""

LISTED_BY_HAND = [
    "addi a0, x0, 0;.zero 5 == 0x00010000 00000513 addi x10, x0, 0;0x00010004 00000000 -;",
    "nop;nop == 0x00010000 00000013 addi x0, x0, 0;0x00010004 00000013 addi x0, x0, 0;",
]


def instructions():
    """Each mnemonic with its extreme numbers, and registers that go through all names."""
    names = PLAIN + CONVENTION + ["fp"]
    turn = 0

    def register():
        nonlocal turn
        turn += 7
        return names[turn % len(names)]

    for name in OPERATIONS:
        for _ in range(3):
            yield f"{name} {register()}, {register()}, {register()}"
    for name in IMMEDIATES:
        for number in ("-2048", "2047", "0", "-0x1", "0x7fF"):
            yield f"{name} {register()}, {register()}, {number}"
    for name in SHIFTS:
        for number in ("0", "31", "0x1f", "1"):
            yield f"{name} {register()}, {register()}, {number}"
    for name in LOADS + ["jalr"]:
        for number in ("-2048", "2047", "0", "-4", "0x10"):
            yield f"{name} {register()}, {number}({register()})"
    for name in STORES:
        for number in ("-2048", "2047", "0", "-1", "0x555", "-0x556"):
            yield f"{name} {register()}, {number}({register()})"
    for name in BRANCHES:
        for number in ("-4096", "4094", "0", "-2", "0x554", "2730"):
            yield f"{name} {register()}, {register()}, {number}"
    for number in ("-1048576", "1048574", "0", "-2", "0x55554", "-349526", "2048"):
        yield f"jal {register()}, {number}"
        yield f"j {number}"
    for name in ("lui", "auipc"):
        for number in ("0", "1048575", "0x80000", "1", "0x12345"):
            yield f"{name} {register()}, {number}"
    for number in ("0", "4095", "2048", "0xff", "0x8ff"):
        yield f"fence {register()}, {register()}, {number}"
    for name in ("ecall", "ebreak", "nop", "ret"):
        yield name
    for _ in range(8):
        yield f"mv {register()}, {register()}"
    for number in ("0x12345fff", "-2049", "2049", "0x7fffffff", "-2147483647", "4294963201", "0x800", "0xabcdef01"):
        yield f"li {register()}, {number}"
    for name in names:
        yield f"add {name}, {name}, {name}"


def programs():
    """Labels before and behind, directives, and blanks and comments where they may stand."""
    yield "loop: j loop"
    yield "loop:; nop; j loop"
    yield "j end; nop; end: ret"
    yield "a: beq x0, x0, c; b: bne a0, a1, a; c: blt t0, t1, b; bgeu s0, s1, a"
    yield "la a0, text; la a1, end; text: .word 1; end:"
    yield "jal ra, _f.1; .zero 12; _f.1: jal x0, _f.1"
    yield "far: nop; .zero 100; bltu x1, x2, far; j far; la t0, far"
    yield "la s1, far; .zero 2044; far: .byte 1; .byte 2; .byte 3; .byte 4"
    yield ".byte -128; .byte 255; .byte 0; .byte 0x7F"
    yield ".word -2147483648; .word 4294967295; .word 0xDEADbeef; .word -1"
    yield ".zero 1; .zero 7; nop"
    yield "addi a0, x0, 0; addi a7, x0, 93; ecall"
    yield " \t a:  \tadd\ta0 , a1\t,a2 \t # a: b: c"
    yield "# nothing; ;  \t; nop # nop"
    yield "Label_9.z: sw a0,-4(sp);lw\ta1 ,\t-4(sp); beqz_: beq a0 ,a1,Label_9.z"
    longest = "a23456789_123456789_123456789_123456789_123456789_123456789_1234"
    yield f"{longest}: nop; j {longest}"


def for_gnu(line):
    """The line as GNU as spells it."""
    code = line.split("#")[0]
    label, colon, rest = code.rpartition(":")
    front = label + colon
    words = rest.split(None, 1)
    if not words:
        return code
    name = words[0]
    operands = [operand.strip() for operand in words[1].split(",")] if len(words) > 1 else []
    if name in BRANCHES + ["jal", "j"] and re.fullmatch(r"-?[0-9][0-9a-fA-Fx]*", operands[-1]):
        operands[-1] = f". + {operands[-1]}"
    if name == "fence":
        number = int(operands[2], 0)
        operands[2] = str(number - 4096 if number > 2047 else number)
        return f"{front} .insn i 0x0f, 0, {', '.join(operands)}"
    if name == "la":
        rd, target = operands
        return f"{front} lui {rd}, %hi({target})\naddi {rd}, {rd}, %lo({target})"
    return f"{front} {name} {', '.join(operands)}"


def run(*words):
    """Runs a program of binutils, which must succeed."""
    subprocess.run([TOOLS + words[0], *map(str, words[1:])], check=True)


def words_of(source, folder):
    """The words that GNU as and ld make of a source."""
    lines = [for_gnu(line) for line in source.split(";")]
    text, made, linked, binary = (folder / name for name in ("a.s", "a.o", "a.elf", "a.bin"))
    text.write_text("\n".join([".option norelax", ".globl _start", "_start:", *lines, ""]))
    run("as", "-march=rv32im", "-mabi=ilp32", "-o", made, text)
    run("ld", "-m", "elf32lriscv", "-Ttext=0x10000", "--no-relax", "-o", linked, made)
    run("objcopy", "-O", "binary", "-j", ".text", linked, binary)
    body = binary.read_bytes()
    return struct.unpack(f"<{len(body) // 4}I", body)


def main():
    """Prints the rows."""
    with tempfile.TemporaryDirectory() as name:
        for source in [*instructions(), *programs()]:
            words = words_of(source, Path(name))
            print(source, "->", " ".join(f"{word:08x}" for word in words))
        listed = [(line, *words_of(line, Path(name))) for line in LISTED]
    for row in BY_HAND:
        print(row)
    for line, word in listed:
        print(f"{line} == 0x00010000 {word:08x} {line};")
    for row in LISTED_BY_HAND:
        print(row)
    return 0


if __name__ == "__main__":
    sys.exit(main())
