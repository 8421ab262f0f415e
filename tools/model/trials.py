"""Random trials. A trial is a set of files and the words of one `check`; its seed alone determines it."""
import random

from guest import Image
from programs import carrying_program, forked_program, random_bytes, random_program, usual_program
from trial_cuts import random_cut, with_patterns
from trial_regions import random_regions, region_file
from verdicts import MOST_BUDGET, USUAL_TURNS, judge, real_run

TRIED_TURNS, LONG_OUTPUT = 3000, 5000
LENGTHS, LONG_LENGTHS = (0, 1, 1, 2, 2, 3, 4, 4, 8), (1, 2, 4, 4, 8, 8, 12, 16)


def random_secrets(dice, is_forked, lengths):
    """Secrets of one length, some of them alike, or all zeros, or rarely of another length."""
    length = dice.choice(lengths)
    count = dice.choice([1, 1, 2, 2, 2, 3, 4])
    secrets = []
    for _ in range(count):
        secret = [dice.choice([dice.randrange(256), dice.randrange(8), 0]) for _ in range(length)]
        secrets.append(bytearray(byte | (is_forked and dice.random() < 0.6) for byte in secret))
    if dice.random() < 0.15:
        secrets[dice.randrange(count)] = bytearray(length)
    if length and count > 1 and dice.random() < 0.2:
        secrets[1] = bytearray(secrets[0])
        secrets[1][dice.randrange(length)] ^= 1 << dice.randrange(8)
    if dice.random() < 0.04:
        secrets[dice.randrange(count)] = random_bytes(dice, length + dice.choice([1, 2]))
    return [bytes(secret) for secret in secrets]


def random_limit(dice, reals):
    """The limit of turns: mostly the usual one, else around the length of a run."""
    if any(real.ending[0] == "unfinished" for real in reals):
        return dice.randint(1, 1500)
    longest = max(len(real.turns) for real in reals)
    if dice.random() < 0.08:
        return max(1, dice.choice([dice.randint(1, longest + 1), longest, longest + 1, longest + 2]))
    return dice.choice([5000, 20_000_000]) if dice.random() < 0.1 else USUAL_TURNS


def random_budget(dice, needs):
    """The budget: mostly what suffices, else around what a secret needs."""
    need = dice.choice(needs)
    enough = [max(needs)] * 5 + [MOST_BUDGET] * 9
    return min(MOST_BUDGET, dice.choice(enough + [need, max(need - 1, 0), dice.randint(0, need), 0]))


def random_guest(dice, is_carrying=False, make=None, lengths=None):
    """A program with its files, regions and limit, and the real runs of its secrets, which have one of some lengths."""
    while True:
        is_forked = dice.random() < 0.35
        usual = carrying_program if is_carrying else forked_program if is_forked else usual_program
        program, file = random_program(dice, make or usual)
        image, public = Image(file), random_bytes(dice, dice.choice([0, 0, 1, 4, 8]))
        secrets = random_secrets(dice, is_forked, lengths or (LONG_LENGTHS if is_carrying else LENGTHS))
        regions = random_regions(dice, program, image, public, secrets)
        reals = [real_run(image, public, secret, regions, TRIED_TURNS) for secret in secrets]
        limit = random_limit(dice, reals)
        reals = [real_run(image, public, secret, regions, min(limit, TRIED_TURNS)) for secret in secrets]
        if max(len(real.guest.output) for real in reals) <= LONG_OUTPUT or dice.random() < 0.1:
            return program, file, (image, public, secrets), regions, limit, reals


def random_trial(seed, has_patterns=False):
    """The files of a trial by name, and the words behind `check`; its cut may be of version 2."""
    dice = random.Random(seed)
    program, file, inputs, regions, limit, reals = random_guest(dice)
    image, public, secrets = inputs
    cut = random_cut(dice, program, inputs, regions, reals, limit)
    other_dice = random.Random(f"patterns {seed}")
    if has_patterns and other_dice.random() < 0.8:
        cut = with_patterns(other_dice, cut)
    needs = []
    for secret, real in zip(secrets, reals):
        needs.append(len(judge(image, public, secret, regions, cut, MOST_BUDGET, limit, real).bits))
    files = {"program": file, "public": public, "cut": cut.text().encode()}
    files |= {f"secret{number}": secret for number, secret in enumerate(secrets, 1)}
    words = ["program", "public", "cut", str(random_budget(dice, needs)), *list(files)[3:]]
    given, options = usual_options(dice, regions, limit)
    return files | given, words + spelled(dice, options)


def usual_options(dice, regions, limit):
    """The files and the options of regions and of a limit of turns."""
    files, options = {}, []
    if regions or dice.random() < 0.05:
        files["regions"] = region_file(dice, regions)
        options.append(["--regions", "regions"])
    if limit != USUAL_TURNS:
        options.append(["--turns", str(limit)])
    return files, options


def spelled(dice, options):
    """Options as words, in any order and spelling."""
    words = []
    for option in dice.sample(options, len(options)):
        words += ["=".join(option)] if dice.random() < 0.3 else option
    return words
