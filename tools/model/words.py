"""The words of instructions, and a program that is written word by word with labels."""
from instructions import ALL, sign_extended
from program_files import packed

ECALL, EBREAK = 0x73, 0x100073
ARITHMETIC, ARITHMETIC_IMMEDIATE, LOAD, JALR, LUI, AUIPC = 0x33, 0x13, 0x03, 0x67, 0x37, 0x17
ADD, XOR, AND, MULTIPLY = (0, 0), (0, 4), (0, 7), (1, 0)


def register_word(operation, destination, first, second):
    """Arithmetic with two registers; an operation is its two fields (major, minor)."""
    major, minor = operation
    return major << 25 | second << 20 | first << 15 | minor << 12 | destination << 7 | ARITHMETIC


def immediate_word(minor, destination, first, immediate, opcode=ARITHMETIC_IMMEDIATE):
    """Arithmetic with an immediate, a load or JALR."""
    return (immediate & 0xFFF) << 20 | first << 15 | minor << 12 | destination << 7 | opcode


def store_word(minor, first, second, offset):
    """A store of the second register."""
    offset &= 0xFFF
    return offset >> 5 << 25 | second << 20 | first << 15 | minor << 12 | (offset & 31) << 7 | 0x23


def branch_word(minor, first, second, offset):
    """A branch."""
    high = (offset >> 12 & 1) << 31 | (offset >> 5 & 63) << 25
    return high | second << 20 | first << 15 | minor << 12 | (offset >> 1 & 15) << 8 | (offset >> 11 & 1) << 7 | 0x63


def upper_word(destination, upper, opcode=LUI):
    """LUI or AUIPC."""
    return (upper & 0xFFFFF) << 12 | destination << 7 | opcode


def jump_word(destination, offset):
    """JAL."""
    high = (offset >> 20 & 1) << 31 | (offset >> 1 & 1023) << 21 | (offset >> 11 & 1) << 20
    return high | (offset >> 12 & 255) << 12 | destination << 7 | 0x6F


class Writer:
    """A program that begins at the address `code`; its branches and jumps may name labels that come later."""

    def __init__(self, dice, code, data):
        self.dice, self.code, self.data = dice, code, data
        self.words, self.labels, self.pending = [], {}, []

    @property
    def here(self):
        """The address of the next word."""
        return self.code + 4 * len(self.words)

    def put(self, *words):
        """Writes words."""
        self.words += [word & ALL for word in words]

    def put_number(self, register, number):
        """Sets a register to a number, in one word or two."""
        number &= ALL
        if sign_extended(number, 12) & ALL == number:
            self.put(immediate_word(0, register, 0, number))
            return
        self.put(upper_word(register, (number + 0x800 & ALL) >> 12))
        if number & 0xFFF:
            self.put(immediate_word(0, register, register, number))

    def put_branch(self, minor, first, second):
        """Writes a branch to a label that is returned, for `place`."""
        self.pending.append((len(self.words), lambda offset: branch_word(minor, first, second, offset)))
        self.put(0)
        return len(self.pending) - 1

    def put_jump(self, destination):
        """Writes a jump to a label that is returned, for `place`."""
        self.pending.append((len(self.words), lambda offset: jump_word(destination, offset)))
        self.put(0)
        return len(self.pending) - 1

    def place(self, label, address=None):
        """Says where a label is: here, or at the address."""
        self.labels[label] = self.here if address is None else address

    def body(self):
        """The bytes of the program, every label of which has its place."""
        for label, (index, word) in enumerate(self.pending):
            self.words[index] = word(self.labels[label] - self.code - 4 * index)
        return packed(self.words)
