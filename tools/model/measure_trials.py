"""Random trials of `measure`: the files and the words behind the command; a seed alone determines them."""
import random

from program_files import packed, plain_file
from trials import random_guest, spelled, usual_options
from words import ECALL, LOAD, immediate_word, upper_word
from worked_trial import number_word

WIDE_POINTS = 32_768


def wide_guest(dice):
    """A program with about as many points as a graph may have, which may exit or be stopped at its end."""
    words = [number_word(10, 3), upper_word(11, 0x80), number_word(12, 1), number_word(17, 63), ECALL]
    words += [immediate_word(4, 5, 11, 0, LOAD)]
    words += [immediate_word(0, 5, 5, 0)] * (WIDE_POINTS + dice.randint(-2, 1))
    words += [number_word(10, 0), number_word(17, 93), ECALL if dice.random() < 0.9 else 0]
    return {"program": plain_file(packed(words)), "public": b"", "secret": b"\x5a"}


def measure_trial(seed):
    """The files of a trial by name, and its options as pairs of words."""
    dice = random.Random(f"measure {seed}")
    if dice.random() < 0.005:
        return wide_guest(dice), []
    _, file, inputs, regions, limit, _ = random_guest(dice, dice.random() < 0.75)
    _, public, secrets = inputs
    files, options = usual_options(dice, regions, limit)
    return files | {"program": file, "public": public, "secret": secrets[0]}, options


def measure_words(seed, options):
    """The words of a trial behind the command."""
    return ["program", "public", "secret", *spelled(random.Random(f"words {seed}"), options)]
