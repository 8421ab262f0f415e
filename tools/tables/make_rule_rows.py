#!/usr/bin/env python3
"""Makes the table `rule` of crates/label_rows by brute force.

It prints a line for each case on standard output:

    TABLE WORD V1 M1 V2 M2 -> CHANGED MASK

All are hexadecimal. WORD is an instruction of RV32IM, V1 and V2 its operands (an immediate is the second,
sign-extended, with mask 0), and M1 and M2 their secret bits. CHANGED has each bit of the result that differs between
any two pairs of operands that agree with V1 and V2 outside M1 and M2: every value of the secret bits of both operands
is tried, so there are at most 8 secret bits in a case, and every operation of the instruction's class is computed.
(For a load, a store or JALR the result is the address.) MASK is what table TABLE of the mask rules says, written here
from its words; table 0 is that of a book all of whose rules answer all bits where any bit is secret. The script stops
where MASK does not have each bit of CHANGED.

First come worked masks that were computed by hand; they have the bits of the mask that the script saw change. Then 12
cases for each instruction by table 1, and so many cases for each of the six classes of table 2 that are narrower that
600 are by it. Then 300 cases for each of the eleven classes of table 3 that are narrower, and 4 for each instruction of
another class by it. Then one instruction of each class by table 0, and last five rows that must not agree.

The operations are computed from the RISC-V Unprivileged ISA; nothing here is taken from the crates.

With the word `compare` the script prints instead, for random operands with any secret bits, in how many cases of each
class table 2 is narrower than table 1, and table 3 than table 2. It stops where the later has a bit that the earlier
does not have, where 16 random choices of the secret bits change a bit that table 3 does not have, and where the rule of
tools/model is another."""
import argparse
import pathlib
import random
import sys

sys.path.insert(0, str(pathlib.Path(__file__).resolve().parent.parent / "model"))

from rules import TABLES as MODEL

ALL = 0xFFFFFFFF
EDGES = (0, 1, 2, 4, 31, 32, 0x7F, 0x80, 0xFF, 0x7FFFFFFF, 0x80000000, 0x80000001, 0xFFFFFFFE, ALL)
EDGES += (0x0F0F0F0F, 0x12345678)
# secret bits: none, one, a few at the ends, in the middle, spread
MASKS = (0, 1, 2, 0xF, 0x10, 0x20, 0x80, 0xF0, 0x80000000, 0xC0000000, 0x80000001, 0xF0000000, 0x00018000, 0x01010101)


def signed(word):
    """A word as a signed number."""
    return word - (1 << 32) if word >> 31 else word


def divided(first, second, is_signed):
    """The quotient and the remainder, rounded towards zero; division by zero and overflow by the manual."""
    if second == 0:
        return ALL, first
    if not is_signed:
        return first // second, first % second
    a, b = signed(first), signed(second)
    quotient = abs(a) // abs(b) * (1 if (a < 0) == (b < 0) else -1)
    return quotient & ALL, (a - quotient * b) & ALL


OPERATIONS = {
    "Add": [lambda a, b: (a + b) & ALL],
    "Sub": [lambda a, b: (a - b) & ALL],
    "And": [lambda a, b: a & b],
    "Or": [lambda a, b: a | b],
    "Xor": [lambda a, b: a ^ b],
    "Sll": [lambda a, b: (a << (b & 31)) & ALL],
    "Srl": [lambda a, b: a >> (b & 31)],
    "Sra": [lambda a, b: (signed(a) >> (b & 31)) & ALL],
    "Slt": [lambda a, b: int(signed(a) < signed(b)), lambda a, b: int(signed(a) >= signed(b))],
    "Sltu": [lambda a, b: int(a < b), lambda a, b: int(a >= b)],
    "Equal": [lambda a, b: int(a == b), lambda a, b: int(a != b)],
    "Mul": [lambda a, b: (a * b) & ALL],
    "Mulh": [lambda a, b: (signed(a) * signed(b) >> 32) & ALL],
    "Mulhsu": [lambda a, b: (signed(a) * b >> 32) & ALL],
    "Mulhu": [lambda a, b: (a * b >> 32) & ALL],
    "Div": [lambda a, b: divided(a, b, True)[0]],
    "Divu": [lambda a, b: divided(a, b, False)[0]],
    "Rem": [lambda a, b: divided(a, b, True)[1]],
    "Remu": [lambda a, b: divided(a, b, False)[1]],
    # the target of JALR
    "Target": [lambda a, b: (a + b) & ALL & ~1],
}


def total(t):
    """The lowest secret bit and every bit above it."""
    return (t | -t) & ALL


def shifted(v2, m1, m2, shift):
    """The mask of a shift by a number of places that may be secret."""
    return ALL if m2 & 31 else shift(m1, v2 & 31)


def by_table(kind, v1, m1, v2, m2):
    """The mask of a result by table 1."""
    t = m1 | m2
    if kind in ("Add", "Sub", "Mul"):
        return total(t)
    if kind == "Target":
        return total(t) & ~1
    if kind == "And":
        return t & (m1 | v1) & (m2 | v2)
    if kind == "Or":
        return t & (m1 | ~v1 & ALL) & (m2 | ~v2 & ALL)
    if kind == "Xor":
        return t
    if kind == "Sll":
        return shifted(v2, m1, m2, lambda m, n: (m << n) & ALL)
    if kind == "Srl":
        return shifted(v2, m1, m2, lambda m, n: m >> n)
    if kind == "Sra":
        return shifted(v2, m1, m2, lambda m, n: (signed(m) >> n) & ALL)
    if kind in ("Slt", "Sltu", "Equal"):
        return 1 if t else 0
    return ALL if t else 0


def lowest(word):
    """The lowest bit of a word."""
    return word & -word & ALL


def ordered(v1, m1, v2, m2):
    """0 where every word that the first operand may be is below every one that the second may be, or none is."""
    return 0 if v1 | m1 < v2 & ~m2 & ALL or v1 & ~m1 & ALL >= v2 | m2 else 1


def by_narrow_table(kind, v1, m1, v2, m2):
    """The mask of a result by table 2."""
    t = m1 | m2
    least1, least2, most1, most2 = v1 & ~m1 & ALL, v2 & ~m2 & ALL, v1 | m1, v2 | m2
    if kind == "Add":
        return (t | (most1 + most2 ^ least1 + least2)) & ALL
    if kind == "Sub":
        return (t | (most1 - least2 ^ least1 - most2)) & ALL
    if kind == "Target":
        return by_narrow_table("Add", v1, m1, v2, m2) & ~1
    if kind == "Sltu":
        return ordered(v1, m1, v2, m2)
    if kind == "Slt":
        return ordered(v1 ^ 0x80000000, m1, v2 ^ 0x80000000, m2)
    if kind == "Equal":
        return 0 if t == 0 or (v1 ^ v2) & ~t & ALL else 1
    if kind == "Mul":
        return total((lowest(m1) * lowest(most2) | lowest(m2) * lowest(most1)) & ALL)
    return by_table(kind, v1, m1, v2, m2)


def below_difference(one, other):
    """The highest bit in which two numbers differ and every bit below it."""
    bits = one ^ other
    for shift in (1, 2, 4, 8, 16, 32):
        bits |= bits >> shift
    return bits


def amounts(v2, m2):
    """The numbers of places by which a shift may go."""
    return sorted({value & 31 for value in values(v2 & 31, m2 & 31)})


def by_ranges(kind, least1, most1, least2, most2):
    """The mask of a product's high half, a quotient or a remainder without signs, by what each operand is between."""
    if kind == "Mulhu":
        return below_difference(least1 * least2 >> 32, most1 * most2 >> 32)
    if least2 == 0:
        return ALL
    if kind == "Divu":
        return below_difference(least1 // most2, most1 // least2)
    return most1 ^ least1 if most1 < least2 else below_difference(0, min(most1, most2 - 1))


WITHOUT_SIGNS = {"Mulh": "Mulhu", "Mulhsu": "Mulhu", "Div": "Divu", "Rem": "Remu"}


def by_ranged_table(kind, v1, m1, v2, m2):
    """The mask of a result by table 3."""
    least1, least2, most1, most2 = v1 & ~m1 & ALL, v2 & ~m2 & ALL, v1 | m1, v2 | m2
    if not m1 | m2:
        return 0
    if kind in ("Sll", "Srl", "Sra"):
        shift, may_be_1, may_be_0 = OPERATIONS[kind][0], 0, 0
        for amount in amounts(v2, m2):
            may_be_1, may_be_0 = may_be_1 | shift(most1, amount), may_be_0 | ~shift(least1, amount)
        return may_be_1 & may_be_0
    if kind == "Mul" and most1 * most2 < 1 << 32:
        return by_narrow_table(kind, v1, m1, v2, m2) & below_difference(least1 * least2, most1 * most2)
    if kind in WITHOUT_SIGNS:
        signs = most1 | (0 if kind == "Mulhsu" else most2)
        return ALL if signs >> 31 else by_ranges(WITHOUT_SIGNS[kind], least1, most1, least2, most2)
    if kind in ("Mulhu", "Divu", "Remu"):
        return by_ranges(kind, least1, most1, least2, most2)
    return by_narrow_table(kind, v1, m1, v2, m2)


def by_widest_table(kind, v1, m1, v2, m2):
    """The mask of a result by table 0."""
    return (ALL if m1 | m2 else 0) & (~1 if kind == "Target" else ALL)


TABLES = (by_widest_table, by_table, by_narrow_table, by_ranged_table)
NARROW = ("Add", "Sub", "Slt", "Sltu", "Equal", "Mul")
RANGED = ("Mul", "Mulh", "Mulhsu", "Mulhu", "Div", "Divu", "Rem", "Remu", "Sll", "Srl", "Sra")


def values(value, mask):
    """Every value that agrees with one outside a mask."""
    part = mask
    while True:
        yield (value & ~mask & ALL) | part
        if part == 0:
            return
        part = (part - 1) & mask


def changed(kind, v1, m1, v2, m2):
    """The bits of the result that change over all values of the secret bits."""
    bits = 0
    for operation in OPERATIONS[kind]:
        results = [operation(a, b) for a in values(v1, m1) for b in values(v2, m2)]
        for result in results:
            bits |= result ^ results[0]
    return bits


def register_form(opcode, funct3, funct7):
    """The word of an instruction with two registers."""
    return lambda imm: funct7 << 25 | 7 << 20 | 6 << 15 | funct3 << 12 | 5 << 7 | opcode


def immediate_form(opcode, funct3):
    """The word of an instruction with an immediate, by the immediate."""
    return lambda imm: (imm & 0xFFF) << 20 | 6 << 15 | funct3 << 12 | 5 << 7 | opcode


def shift_form(funct3, funct7):
    """The word of a shift by a number, by the number."""
    return lambda imm: funct7 << 25 | (imm & 31) << 20 | 6 << 15 | funct3 << 12 | 5 << 7 | 0x13


def branch_form(funct3):
    """The word of a branch."""
    return lambda imm: 7 << 20 | 6 << 15 | funct3 << 12 | 8 << 7 | 0x63


def store_form(funct3):
    """The word of a store, by its offset."""
    return lambda imm: (imm >> 5 & 0x7F) << 25 | 7 << 20 | 6 << 15 | funct3 << 12 | (imm & 31) << 7 | 0x23


# each instruction: its class, its word, and whether the second operand is an immediate
INSTRUCTIONS = (
    [(kind, register_form(0x33, funct3, funct7), None) for kind, funct3, funct7 in (
        ("Add", 0, 0), ("Sub", 0, 0x20), ("Sll", 1, 0), ("Slt", 2, 0), ("Sltu", 3, 0), ("Xor", 4, 0), ("Srl", 5, 0),
        ("Sra", 5, 0x20), ("Or", 6, 0), ("And", 7, 0), ("Mul", 0, 1), ("Mulh", 1, 1), ("Mulhsu", 2, 1), ("Mulhu", 3, 1),
        ("Div", 4, 1), ("Divu", 5, 1), ("Rem", 6, 1), ("Remu", 7, 1),
    )]
    + [(kind, immediate_form(0x13, funct3), "immediate") for kind, funct3 in (
        ("Add", 0), ("Slt", 2), ("Sltu", 3), ("Xor", 4), ("Or", 6), ("And", 7),
    )]
    + [(kind, shift_form(funct3, funct7), "number") for kind, funct3, funct7 in (
        ("Sll", 1, 0), ("Srl", 5, 0), ("Sra", 5, 0x20),
    )]
    + [(kind, branch_form(funct3), None) for kind, funct3 in (
        ("Equal", 0), ("Equal", 1), ("Slt", 4), ("Slt", 5), ("Sltu", 6), ("Sltu", 7),
    )]
    + [("Add", immediate_form(0x03, 2), "immediate"), ("Add", store_form(2), "immediate"),
       ("Target", immediate_form(0x67, 0), "immediate")]
)
IMMEDIATES = (-2048, -1, 0, 1, 15, 2047)
NUMBERS = (0, 1, 4, 16, 31)


def second_operand(choose, place):
    """An immediate and the second operand and mask that it makes; of a register, the operand and its mask."""
    if place == "immediate":
        imm = choose.choice(IMMEDIATES)
        return imm, imm & ALL, 0
    if place == "number":
        imm = choose.choice(NUMBERS)
        return imm, imm, 0
    return 0, choose.choice(EDGES), choose.choice(MASKS)


# masks that were computed by hand: the table, the instruction's number in INSTRUCTIONS, the operands and the mask
ADD, SUB, SLL, SLT, SLTU, XOR, SRL, SRA, OR, AND, MUL, MULH, MULHSU, MULHU, DIV, DIVU, REM, REMU = range(18)
BEQ = 27
WORKED = (
    (1, ADD, 0, 0x10, 0, 0, 0xFFFFFFF0),
    (1, SUB, 0, 0, 0, 0x10, 0xFFFFFFF0),
    (1, AND, 0x0F, 0xF0, 0x3C, 0, 0x30),
    (1, OR, 0x0F, 0xF0, 0x3C, 0, 0xC0),
    (1, XOR, 0, 0x0F, 0, 0x30, 0x3F),
    (1, SRA, 0, 0x80000000, 4, 0, 0xF8000000),
    (1, SRL, 0, 0x80000000, 4, 0, 0x08000000),
    (1, SLL, 0, 3, 0, 1, 0xFFFFFFFF),
    (1, SLL, 0, 3, 4, 0x20, 0x30),
    (1, MUL, 0, 4, 0, 0, 0xFFFFFFFC),
    (1, SLT, 0, 1, 0, 0, 1),
    (1, SLTU, 0, 1, 0, 0, 1),
    (1, BEQ, 0, 1, 0, 0, 1),
    (1, DIV, 0, 0, 0, 1, 0xFFFFFFFF),
    (1, MULH, 0, 0, 0, 1, 0xFFFFFFFF),
    (2, ADD, 0, 1, 2, 0, 1),
    (2, SUB, 8, 1, 2, 0, 1),
    (2, MUL, 0, 2, 4, 0, 0xFFFFFFF8),
    (2, MUL, 0, 0xFF, 0, 0, 0),
    (2, SLTU, 0, 7, 7, 0, 1),
    (3, MUL, 0, 0xFF, 10, 0, 0xFFE),
    (3, MUL, 0, 0xFF, 0, 0xFF, 0xFFFF),
    (3, MUL, 0, 0xF, 0x10000000, 0, 0xF0000000),
    (3, MULHU, 0, 0xFF000000, 0x10000, 0, 0xFFFF),
    (3, MULHU, 0, 0xFF, 0xFF, 0, 0),
    (3, MULH, 0, 0x7F000000, 0x10000, 0, 0x7FFF),
    (3, MULH, 0, 1, 0x80000000, 0, 0xFFFFFFFF),
    (3, MULHSU, 0, 1, 0x80000000, 0, 0),
    (3, MULHSU, 0x80000000, 1, 1, 0, 0xFFFFFFFF),
    (3, DIVU, 0, 0xFF, 10, 0, 0x1F),
    (3, DIVU, 0xC0, 0xF, 10, 0, 7),
    (3, DIVU, 0xF0, 7, 1, 2, 0xFF),
    (3, DIVU, 0xF0, 0, 0, 1, 0xFFFFFFFF),
    (3, DIV, 0, 0xFF, 2, 0, 0x7F),
    (3, DIV, 0x80000000, 1, 2, 0, 0xFFFFFFFF),
    (3, DIV, 0x80000000, 0, 0xFFFFFFFF, 0, 0),
    (3, REMU, 0, 0xFF, 10, 0, 0xF),
    (3, REMU, 0, 0x7C, 128, 0, 0x7C),
    (3, REMU, 5, 0, 8, 16, 0),
    (3, REMU, 5, 0, 0, 8, 0xFFFFFFFF),
    (3, REM, 0, 0xFF, 4, 0, 3),
    (3, REM, 0xFFFFFFF0, 1, 4, 0, 0xFFFFFFFF),
    (3, SLL, 1, 0, 0, 3, 0xF),
    (3, SRL, 0x80, 0, 0, 3, 0xF0),
    (3, SRA, 0xFFFFFFF8, 0, 0, 3, 7),
    (3, SRA, 0xFFFFFF80, 0xF, 0, 4, 0x7F),
)


def row(table, kind, case):
    """Prints the row of a case."""
    _, v1, m1, v2, m2 = case
    bits = changed(kind, v1, m1, v2, m2)
    mask = TABLES[table](kind, v1, m1, v2, m2)
    assert bits & ~mask == 0, (kind, case, hex(bits), hex(mask))
    print(table, " ".join(f"{number:08x}" for number in case), "->", f"{bits:08x} {mask:08x}")


def worked_rows():
    """Prints the rows that were worked out by hand."""
    for table, number, v1, m1, v2, m2, wanted in WORKED:
        kind, word, _ = INSTRUCTIONS[number]
        assert TABLES[table](kind, v1, m1, v2, m2) == wanted, (table, kind, v1, m1, v2, m2, wanted)
        row(table, kind, (word(0), v1, m1, v2, m2))


def random_rows(choose, table, instruction, count):
    """Prints so many random rows of an instruction."""
    kind, word, place = instruction
    seen = set()
    while len(seen) < count:
        imm, v2, m2 = second_operand(choose, place)
        v1, m1 = choose.choice(EDGES), choose.choice(MASKS)
        case = (word(imm), v1, m1, v2, m2)
        if bin(m1).count("1") + bin(m2).count("1") > 8 or case in seen:
            continue
        seen.add(case)
        row(table, kind, case)


def ranged_rows(choose):
    """Cases of table 3: many of the classes that it makes narrower, and some of the others."""
    for instruction in INSTRUCTIONS:
        count = sum(other[0] == instruction[0] for other in INSTRUCTIONS)
        random_rows(choose, 3, instruction, -(-300 // count) if instruction[0] in RANGED else 4)


def widest_rows():
    """One instruction of each class, and a load; the top bit of the first operand is secret, all else is 0."""
    seen = set()
    for number, (kind, word, place) in enumerate(INSTRUCTIONS):
        if kind not in seen and place is None or number == len(INSTRUCTIONS) - 3:
            seen.add(kind)
            row(0, kind, (word(0), 0, 0x80000000, 0, 0))


def wrong_rows():
    """Rows that must not agree: another mask, a changed bit outside it, and three that are no rows."""
    operands = "00000000 00000010 00000000 00000000"
    print(f"1 007302b3 {operands} -> 00000010 00000010")
    print(f"1 007302b3 {operands} -> 00000001 fffffff0")
    print(f"1 00000073 {operands} -> 00000010 fffffff0")
    print(f"1 007302b3 {operands} 00000000 -> 00000010 fffffff0")
    print(f"4 007302b3 {operands} -> 00000010 fffffff0")


def random_number(choose):
    """A number of any length, or one at an edge."""
    return choose.choice([choose.getrandbits(32), choose.getrandbits(32) >> choose.randrange(33), choose.choice(EDGES)])


def random_mask(choose):
    """Secret bits: a stretch of random ones, few, or some of those of the table."""
    stretch = choose.getrandbits(32) >> choose.randrange(33) << choose.randrange(32) & ALL
    few = choose.getrandbits(32) & choose.getrandbits(32) & choose.getrandbits(32)
    return choose.choice([stretch, stretch, few, (1 << choose.randrange(33)) - 1, choose.choice(MASKS)])


def random_operands(choose):
    """Operands with secret bits in both, or in one."""
    v1, m1, v2, m2 = random_number(choose), random_mask(choose), random_number(choose), random_mask(choose)
    shape = choose.randrange(3)
    return v1, 0 if shape == 1 else m1, v2, 0 if shape == 2 else m2


def chosen(choose, value, mask):
    """A value with other secret bits."""
    return value & ~mask & ALL | choose.getrandbits(32) & mask


def look_at_choices(choose, kind, mask, v1, m1, v2, m2):
    """Stops where other secret bits change a bit outside a mask."""
    for operation in OPERATIONS[kind]:
        first = operation(v1, v2)
        for _ in range(16):
            other = operation(chosen(choose, v1, m1), chosen(choose, v2, m2))
            assert (first ^ other) & ~mask == 0, (kind, v1, m1, v2, m2)


def is_narrower(kind, wide, narrow, operands):
    """Whether one table is narrower than another; stops where it is wider, or where the model is another."""
    masks = [TABLES[table](kind, *operands) for table in (wide, narrow)]
    assert masks[1] & ~masks[0] == 0, (kind, *operands)
    if kind != "Target":
        assert masks[1] == MODEL[narrow][kind.lower()](*operands), (kind, *operands)
    return masks[0] != masks[1]


def compare(choose):
    """Counts in how many random cases table 2 is narrower than table 1, and table 3 than table 2."""
    for kind in NARROW:
        narrower = sum(is_narrower(kind, 1, 2, random_operands(choose)) for _ in range(100_000))
        print(f"{kind} 100000 cases, table 2 narrower in {narrower}, wider in 0", flush=True)
    for kind in OPERATIONS:
        narrower = 0
        for _ in range(20_000):
            operands = random_operands(choose)
            narrower += is_narrower(kind, 2, 3, operands)
            look_at_choices(choose, kind, by_ranged_table(kind, *operands), *operands)
        print(f"{kind} 20000 cases, table 3 narrower in {narrower}, wider in 0", flush=True)


def main():
    """Prints the table, or compares the tables of rules."""
    parser = argparse.ArgumentParser(description=__doc__, formatter_class=argparse.RawDescriptionHelpFormatter)
    parser.add_argument("word", metavar="compare", nargs="?", choices=["compare"])
    choose = random.Random(20)
    if parser.parse_args().word:
        return compare(choose)
    worked_rows()
    for instruction in INSTRUCTIONS:
        random_rows(choose, 1, instruction, 12)
    for kind in NARROW:
        instructions = [instruction for instruction in INSTRUCTIONS if instruction[0] == kind]
        for instruction in instructions:
            random_rows(choose, 2, instruction, -(-600 // len(instructions)))
    ranged_rows(choose)
    widest_rows()
    wrong_rows()


if __name__ == "__main__":
    main()
