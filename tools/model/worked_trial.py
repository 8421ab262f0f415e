"""The command `trial`: a program and a secret of a number, measured and then checked with their own cut."""
from guest import Image
from measures import Measured
from program_files import packed, plain_file
from verdicts import USUAL_TURNS, judge
from words import ECALL, LOAD, immediate_word, store_word, upper_word

ANSWER, BUFFER, COUNT, NUMBER, TAKEN = 10, 11, 12, 17, 6


def number_word(register, number):
    """Sets a register to a small number."""
    return immediate_word(0, register, 0, number)


def trial_words(number, length):
    """The program: it reads the secret, keeps some low bits of each byte, and writes what it has read."""
    words = [number_word(ANSWER, 3), upper_word(BUFFER, 0x80), number_word(COUNT, 2000), number_word(NUMBER, 63), ECALL]
    for index in range(length):
        kept = (1 << 1 + (number + index) % 7) - 1
        words.append(immediate_word(4, TAKEN, BUFFER, index, LOAD))
        words += [immediate_word(7, TAKEN, TAKEN, kept), store_word(0, BUFFER, TAKEN, index)]
    words += [immediate_word(0, COUNT, ANSWER, 0), number_word(ANSWER, 1), number_word(NUMBER, 64), ECALL]
    return words + [number_word(ANSWER, 0), number_word(NUMBER, 93), ECALL]


def trial_secret(number, length):
    """The secret: the high bytes of what a congruence generates."""
    secret, state = bytearray(), number
    for _ in range(length):
        state = (1664525 * state + 1013904223) % (1 << 32)
        secret.append(state >> 24)
    return bytes(secret)


def trial_line(number):
    """The text of `trial`."""
    length = 1 + number % 2000
    words, secret = trial_words(number, length), trial_secret(number, length)
    image = Image(plain_file(packed(words)))
    measured = Measured(image, b"", secret, [], 1, USUAL_TURNS)
    cut = measured.cut()
    judged = judge(image, b"", secret, [], cut, measured.bits, USUAL_TURNS)
    assert judged.word == "accepted", judged.text
    line = f"trial {number} secret {length} bits {measured.bits} points {len(measured.graph.points)}"
    rest = f"cut {len(cut.points)} turns {measured.run.turns} crossing {len(judged.bits)} output {len(measured.output)}"
    return f"{line} {rest}\n"
