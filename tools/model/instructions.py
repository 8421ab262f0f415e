"""The instructions of RV32IM: the instruction of a word, and what each operation computes.

Written from the RISC-V Unprivileged ISA. A word is a number from 0 to 2^32 - 1."""
import collections

ALL = 0xFFFFFFFF
Instruction = collections.namedtuple("Instruction", "form name destination first second immediate")

BRANCHES = {0: "beq", 1: "bne", 4: "blt", 5: "bge", 6: "bltu", 7: "bgeu"}
LOADS = {0: "lb", 1: "lh", 2: "lw", 4: "lbu", 5: "lhu"}
STORES = {0: "sb", 1: "sh", 2: "sw"}
IMMEDIATES = {0: "add", 2: "slt", 3: "sltu", 4: "xor", 6: "or", 7: "and"}
SHIFTS = {(1, 0): "sll", (5, 0): "srl", (5, 0x20): "sra"}
REGISTERS = {
    0: {0: "add", 1: "sll", 2: "slt", 3: "sltu", 4: "xor", 5: "srl", 6: "or", 7: "and"},
    0x20: {0: "sub", 5: "sra"},
    1: {0: "mul", 1: "mulh", 2: "mulhsu", 3: "mulhu", 4: "div", 5: "divu", 6: "rem", 7: "remu"},
}
WIDTHS = {"lb": 1, "lbu": 1, "lh": 2, "lhu": 2, "lw": 4, "sb": 1, "sh": 2, "sw": 4}


def sign_extended(value, bits):
    """The integer whose two's complement of so many bits the low bits of the value are."""
    value &= (1 << bits) - 1
    return value - (1 << bits) if value >> (bits - 1) else value


def signed(word):
    """The integer from -2^31 on that a word stands for."""
    return sign_extended(word, 32)


def jump_offset(word):
    """The offset of JAL."""
    offset = (word >> 31 & 1) << 20 | (word >> 12 & 255) << 12 | (word >> 20 & 1) << 11 | (word >> 21 & 1023) << 1
    return sign_extended(offset, 21)


def branch_offset(word):
    """The offset of a branch."""
    offset = (word >> 31 & 1) << 12 | (word >> 7 & 1) << 11 | (word >> 25 & 63) << 5 | (word >> 8 & 15) << 1
    return sign_extended(offset, 13)


def decode_arithmetic(opcode, destination, minor, first, second, word):
    """The instruction of a word with one of the two opcodes of arithmetic, or None."""
    major = word >> 25
    if opcode == 0x33:
        name = REGISTERS.get(major, {}).get(minor)
        return name and Instruction("register", name, destination, first, second, 0)
    if minor in IMMEDIATES:
        name = IMMEDIATES[minor]
        return Instruction("immediate", name, destination, first, 0, sign_extended(word >> 20, 12))
    name = SHIFTS.get((minor, major))
    return name and Instruction("immediate", name, destination, first, 0, second)


def decode(word):
    """The instruction of a word, or None where there is none."""
    opcode, destination, minor = word & 127, word >> 7 & 31, word >> 12 & 7
    first, second, immediate = word >> 15 & 31, word >> 20 & 31, sign_extended(word >> 20, 12)
    if opcode in (0x37, 0x17):
        name = "lui" if opcode == 0x37 else "auipc"
        return Instruction("upper", name, destination, 0, 0, word & 0xFFFFF000)
    if opcode == 0x6F:
        return Instruction("jump", "jal", destination, 0, 0, jump_offset(word))
    if opcode == 0x67 and minor == 0:
        return Instruction("jump_register", "jalr", destination, first, 0, immediate)
    if opcode == 0x63 and minor in BRANCHES:
        return Instruction("branch", BRANCHES[minor], 0, first, second, branch_offset(word))
    if opcode == 0x03 and minor in LOADS:
        return Instruction("load", LOADS[minor], destination, first, 0, immediate)
    if opcode == 0x23 and minor in STORES:
        offset = sign_extended(word >> 25 << 5 | destination, 12)
        return Instruction("store", STORES[minor], 0, first, second, offset)
    if opcode in (0x13, 0x33):
        return decode_arithmetic(opcode, destination, minor, first, second, word)
    if opcode == 0x0F and minor == 0:
        return Instruction("fence", "fence", 0, 0, 0, 0)
    if word == 0x00000073:
        return Instruction("call", "ecall", 0, 0, 0, 0)
    if word == 0x00100073:
        return Instruction("breakpoint", "ebreak", 0, 0, 0, 0)
    return None


def quotient(first, second):
    """The signed quotient, rounded towards zero, of words of which the second is not 0."""
    magnitude = abs(signed(first)) // abs(signed(second))
    return -magnitude if (signed(first) < 0) != (signed(second) < 0) else magnitude


def remainder(first, second):
    """The signed remainder, which has the sign of the first, of words of which the second is not 0."""
    magnitude = abs(signed(first)) % abs(signed(second))
    return -magnitude if signed(first) < 0 else magnitude


OPERATIONS = {
    "add": lambda first, second: first + second,
    "sub": lambda first, second: first - second,
    "sll": lambda first, second: first << (second & 31),
    "slt": lambda first, second: int(signed(first) < signed(second)),
    "sltu": lambda first, second: int(first < second),
    "xor": lambda first, second: first ^ second,
    "srl": lambda first, second: first >> (second & 31),
    "sra": lambda first, second: signed(first) >> (second & 31),
    "or": lambda first, second: first | second,
    "and": lambda first, second: first & second,
    "mul": lambda first, second: first * second,
    "mulh": lambda first, second: signed(first) * signed(second) >> 32,
    "mulhsu": lambda first, second: signed(first) * second >> 32,
    "mulhu": lambda first, second: first * second >> 32,
    "div": lambda first, second: quotient(first, second) if second else ALL,
    "divu": lambda first, second: first // second if second else ALL,
    "rem": lambda first, second: remainder(first, second) if second else first,
    "remu": lambda first, second: first % second if second else first,
}
DECISIONS = {
    "beq": lambda first, second: first == second,
    "bne": lambda first, second: first != second,
    "blt": lambda first, second: signed(first) < signed(second),
    "bge": lambda first, second: signed(first) >= signed(second),
    "bltu": lambda first, second: first < second,
    "bgeu": lambda first, second: first >= second,
}


def compute(name, first, second):
    """The word that an operation gives of two words."""
    return OPERATIONS[name](first, second) & ALL


def is_taken(name, first, second):
    """Whether a branch is taken: 1 or 0."""
    return int(DECISIONS[name](first, second))
