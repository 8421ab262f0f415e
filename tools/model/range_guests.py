"""Guests that compute one thing of a secret byte, with the answer of `bound` by table 3 of the mask rules to each,
worked out by hand."""
from cuts import Cut
from hand_made import ANSWER, BUFFER, COUNT, NUMBER, exit_words, found, read_words, trial
from instructions import REGISTERS
from program_files import BASE, plain_file
from words import ECALL, LOAD, Writer, immediate_word, register_word, store_word
from worked_trial import number_word

FIRST, SECOND = 6, 7
MINORS = {name: (major, minor) for major, names in REGISTERS.items() for minor, name in names.items()}
# the operation; its two operands, each as a number, or as the bits that are kept of the byte and those that are put
# beside them; and how many bits of the result are free
OF_A_BYTE = [
    ("divu", (255, 0), 10, 5), ("divu", (255, 0), (2, 1), 8), ("divu", (7, 128), (7, 0), 32),
    ("divu", (15, 192), 10, 3), ("remu", (255, 0), 10, 4), ("remu", (124, 0), 128, 5), ("remu", (124, 0), 64, 6),
    ("remu", (15, 0), (7, 0), 32), ("remu", (15, 0), (7, 16), 4), ("rem", (255, 0), 4, 2), ("rem", (15, -16), 4, 32),
    ("div", (255, 0), 2, 7), ("div", (15, -16), 2, 32), ("div", (15, 64), -2, 32), ("mul", (255, 0), 10, 11),
    ("mul", (255, 0), (255, 0), 16), ("mul", (15, 0), -2, 31), ("mul", (1, -16), 2, 31), ("mulhu", (255, 0), -1, 8),
    ("mulhu", (15, -16), 16, 0), ("mulhu", (15, -16), -1, 5), ("mulh", (255, 0), 2, 0), ("mulh", (15, -16), 2, 32),
    ("mulh", (15, 0), -2, 32), ("mulhsu", (255, 0), -1, 8), ("mulhsu", (15, -16), 2, 32), ("sll", 1, (3, 0), 4),
    ("sll", (1, 2), (1, 0), 3), ("srl", 128, (3, 0), 4), ("srl", (255, 0), (1, 0), 8), ("sra", -8, (3, 0), 3),
    ("sra", -128, (4, 0), 4), ("sra", (15, 0), (4, 0), 4),
]


def operand_words(register, operand):
    """Makes a register a number, or a part of the byte with some bits that are 1."""
    if isinstance(operand, int):
        return [number_word(register, operand)]
    kept, added = operand
    words = [immediate_word(4, register, BUFFER, 0, LOAD), immediate_word(7, register, register, kept)]
    return words + [immediate_word(6, register, register, added)]


def guest(name, first, second):
    """A guest that writes the four bytes of a result: its file, and the address of the write."""
    writer = Writer(None, BASE, 0)
    writer.put(*read_words(1), *operand_words(FIRST, first), *operand_words(SECOND, second))
    writer.put(register_word(MINORS[name], FIRST, FIRST, SECOND), store_word(2, BUFFER, FIRST, 0))
    writer.put(number_word(ANSWER, 1), number_word(COUNT, 4), number_word(NUMBER, 64))
    shown = writer.here
    writer.put(ECALL, number_word(ANSWER, 0), *exit_words())
    return plain_file(writer.body()), shown


def range_trials():
    """The trials: each its name, its files, its words and the answer."""
    trials = []
    for place, (name, first, second, bits) in enumerate(OF_A_BYTE):
        file, shown = guest(name, first, second)
        cut = Cut(1, 32, [], {(0, shown, "ou"): ([], [(1, 255)])})
        trials.append(trial(f"range-{place}-{name}", file, cut, found(1, 1, 1 << bits, bits), "--rules=3"))
    return trials
