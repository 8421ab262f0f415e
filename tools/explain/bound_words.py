"""What `bound` says, in words: all outputs that there can be, or why that is unclear and what to change."""
import shlex

from bounding import choices_by_point
from flow_picture import bits_text
from guest import shown
from instruction_text import instruction_text, slot_words
from walk_tracing import endless_of

MOST_SHOWN, MOST_POINTS, MOST_PATHS = 20, 5, 1 << 20
FREE_WORDS = "A question mark is a byte of which some bits are free: it may be any that they make."
WAYS = (
    "Decide once: collect what is compared, and branch at the end. Or enclose the code in a region, by "
    "tools/regions.py or tools/enclose.py, so that its result alone crosses; __attribute__((noinline)) keeps a "
    "function a call, and a region can be around that."
)
MORE_PATHS = "It may be up to 1048576."
ENDLESS = (
    "This loop has no end for the walk: each time that it decides, its value may have any of {bits}. Keep it to fewer "
    "bits by a mask, let it get smaller in a way that the rules know, as by a divisor that is no secret (--rules 3 "
    "knows ranges), or count the rounds."
)
VALUES = (
    "Each bit that crosses here is a choice. Mask the value where fewer bits do. At a written byte, slot ou, bits are "
    "free and no choice, so let them cross there where nothing is decided by them."
)
STATES = (
    "Let these be the same again: clear or overwrite what is no longer wanted, such as a counter that is kept, a "
    "buffer that was filled, or a value that crossed and is stored; or decide before you store."
)
OUTPUTS = "Give the result of the region fewer bits, as by a mask behind the call."
ADVICE = {
    "left": "The walk decides by this slot, or shows it, and some of its bits may differ and have not crossed.",
    "paths": "As many walks as --paths says are not enough. A walk ends where it comes to a state that is known, so "
    "many walks are wanted where few paths come to the same state.",
    "outputs": "The different outputs have too many bytes together. Write less, or let the bits cross where they are "
    "written, where bits are free.",
    "budget": "More bits cross on this path than the budget allows. A greater one may do.",
    "secret-code": "The instruction is made of bits of the secret. Keep the secret from being written where code is.",
    "base": "A range of the region begins where the secret says. Declare the whole of what may be written, with a base "
    "that is public, or leave the region at a place where the register is public.",
}


def advice(reason):
    """What an unclear reason means; who has named as many walks as there may be is not told of more."""
    told = ADVICE[reason_kind(reason)]
    is_more = reason.startswith("paths ") and int(reason.split()[1]) < MOST_PATHS
    return told.replace(" A walk ends", f" {MORE_PATHS} A walk ends") if is_more else told


def reason_kind(reason):
    """The word for why it is unclear, by which the advice is found."""
    words = reason.split()
    return "base" if words[2:3] == ["base"] else words[0]


def secret_words(length, kind=""):
    """The secret by its length."""
    if not length:
        return "the secret of no byte is"
    return f"the {length:,} {kind}bytes are" if length > 1 else f"the {kind}byte is"


def bytes_words(length):
    """A number of bytes."""
    return f"{length:,} byte{'' if length == 1 else 's'}"


def inputs_bits(numbers):
    """How many bits all secrets have, with the public inputs where these may be any."""
    return 8 * (numbers["secret"] + (numbers.get("public") or 0))


def least_count(numbers):
    """How many outputs there are at most: no more than there are inputs."""
    count = 1 << numbers["bits"] if numbers["outputs"] is None else numbers["outputs"]
    return min(count, 1 << inputs_bits(numbers))


def is_no_bound(numbers):
    """Whether there may be as many outputs as there are inputs."""
    return inputs_bits(numbers) > 0 and least_count(numbers) == 1 << inputs_bits(numbers)


def power_words(count):
    """A number, as a power of two where it is large and one."""
    return f"2^{count.bit_length() - 1}" if count > 1 << 20 and count.bit_count() == 1 else f"{count:,}"


def all_words(numbers):
    """How many secrets there are, or pairs, where there may be as many outputs."""
    kind = "secrets" if numbers.get("public") is None else "pairs of a public input and a secret"
    return f"no bound: all {power_words(1 << inputs_bits(numbers))} {kind} may have outputs of their own"


def count_words(numbers):
    """How many outputs there are at most."""
    if is_no_bound(numbers):
        return f"one of {power_words(least_count(numbers))}: {all_words(numbers)}"
    if numbers["outputs"] is None:
        return f"one of at most 2^{numbers['bits']}"
    return f"one of {numbers['outputs']:,}" if numbers["outputs"] > 1 else "the one below"


def claim(answer, turns):
    """What a bounded answer says of secrets, and of public inputs where these may be any."""
    numbers, length = answer.numbers, answer.cut.secret_length
    public = numbers.get("public")
    if numbers["outputs"] == 0:
        return f"No run exits within {turns:,} turns and breaks no region: no path exits."
    if answer.is_of_all() and public is None:
        return f"Whatever {secret_words(length)}, the output is {count_words(numbers)}."
    if answer.is_of_all():
        told = f"Whatever is typed ({bytes_words(public)}) and whatever {secret_words(length, 'secret ')}"
        return f"{told}, the output is {count_words(numbers)}; {runs_words(numbers)}."
    typed = "" if public is None else f"public input of {bytes_words(public)} and every "
    return (
        f"Of every {typed}secret of {bytes_words(length)} whose run ends within {turns:,} turns and breaks no region, "
        f"the output is {count_words(numbers)}."
    )


def rounded_up(count, runs, places):
    """The bits that tell so many outputs apart, times a number of runs, rounded up to so many decimal places."""
    scale = 10**places
    return (count ** (runs * scale) - 1).bit_length() / scale


def runs_words(numbers, runs=3):
    """What three runs on one secret give away at most."""
    count = numbers["outputs"]
    if count == 1:
        return "no run gives anything away"
    bits = runs * numbers["bits"] if count is None else rounded_up(count, runs, 1)
    return f"three runs give away at most {bits:,.{0 if bits == int(bits) else 1}f} bits"


def numbers_words(answer, bits):
    """The numbers of a bounded answer, beside what was measured."""
    numbers = answer.numbers
    told = f"Of {number_words(numbers['paths'], 'path')}, {number_words(numbers['outputs'], 'output')}: "
    told += f"{size_words(numbers)}; {stops_words(numbers)}"
    return told + (f"; measured of the secrets: {bits_text(bits)}." if bits is not None else ".")


def size_words(numbers):
    """How many bits tell the outputs apart: with two places, rounded up, and as the program prints it."""
    count, bits = numbers["outputs"], numbers["bits"]
    if count is None or count < 2 or rounded_up(count, 1, 2) == bits:
        return bits_text(bits)
    return f"{rounded_up(count, 1, 2):.2f} bits, which the program rounds up to {bits}"


def stops_words(numbers):
    """How many paths stop."""
    stopped = numbers["stopped"]
    if stopped == 0:
        return "none stops"
    return "one path stops" if stopped == 1 else f"{number_words(stopped, 'path')} stop"


def number_words(number, word):
    """A number with its word; a dash where there are 2^64 or more."""
    return f"- {word}s (2^64 or more)" if number is None else f"{number:,} {word}{'' if number == 1 else 's'}"


def output_lines(patterns, most, seen=()):
    """The patterns as they are shown, at most so many; those of which an output was seen are marked."""
    marks = [", seen" * any(pattern.holds(*one) for one in seen) for pattern in patterns[:most]]
    lines = [f"    {pattern.text()}{mark}" for pattern, mark in zip(patterns, marks)]
    return lines + ([f"    and {len(patterns) - most:,} more"] if len(patterns) > most else [])


def bounded_lines(answer, public, turns, bits, again, beside=(), seen=()):
    """What stands, as lines; `beside` are lines of what else is known, and `seen` outputs that runs had."""
    lines = ["", claim(answer, turns), numbers_words(answer, bits)]
    lines += output_lines(answer.patterns, MOST_SHOWN, seen)
    lines += [FREE_WORDS] if any(pattern.free for pattern in answer.patterns) else []
    lines += [f"First path that stops: {answer.stopped_line}"] if answer.stopped_line else []
    lines += beside
    said = f"the public input {public} and this length" if answer.numbers.get("public") is None else "these lengths"
    return lines + [f"It is said for {said}, and not of time. To ask again:", "    " + shlex.join(again)]


def point_words(point, program, places):
    """A point with its place and what passes there."""
    address = point[1]
    if not program.is_code(address):
        return f"where no code of the program is, to which an imagined run came; {slot_words(point[2])}"
    text = instruction_text(program.instruction(address), address)
    source = places.line_of(places.at(address)).strip()
    where = f"{places.at(address).text()}, {shown(address)} {text}, {slot_words(point[2])}"
    return where + (f": {source}" if source else "")


def advice_at(point):
    """What to change so that fewer choices are made at a point."""
    slot = point[2]
    if slot == "de":
        return WAYS
    return VALUES if slot == "rs" or slot[0] not in "xr" else OUTPUTS


def parting_lines(parting, program, places):
    """At which decision most states part, what differs between them there, and what to change."""
    if parting is None or not parting.point:
        return []
    lines = [f"Most states part at this decision; of some walks {parting.count:,} different ones were seen there:"]
    lines += ["    " + point_words(parting.point, program, places), "What keeps them apart there:"]
    return lines + [f"    {line}" for line in parting.differences.lines(program, places)] + [STATES]


def endless_lines(walk, program, places):
    """Where a loop has no end for the walk, and what to change; nothing where none is seen."""
    found = endless_of(walk)
    if not found:
        return []
    point, bits = found
    return [ENDLESS.format(bits=bits_text(bits)), "    " + point_words(point, program, places)]


def unclear_lines(answer, walk, program, places, again, parting=None, beside=()):
    """Why it is unclear, and what to change, as lines; `beside` are lines of what else is known."""
    words, length = answer.reason.split(), answer.cut.secret_length
    kind, plural = reason_kind(answer.reason), f"{length:,} byte{'' if length == 1 else 's'}"
    lines = ["", f"Nothing is known of all secrets of {plural}: unclear {answer.reason}.", advice(answer.reason)]
    if kind == "left":
        point = int(words[1]), int(words[2], 16), words[3]
        lines += ["The rounds are over. It stands at", "    " + point_words(point, program, places)]
    lines += parting_lines(parting, program, places) + endless_lines(walk, program, places)
    counted = choices_by_point(walk)
    if counted and kind in ("paths", "outputs", "budget", "left"):
        whole = len(walk.choices)
        lines.append(f"The path of the last walk has {whole} choice{'s' * (whole > 1)}, and each may double the paths:")
        for point, count in counted[:MOST_POINTS]:
            lines.append(f"    {count} at {point_words(point, program, places)}")
        lines.append(advice_at(counted[0][0]))
    return [*lines, *beside, "The cut so far, and the call:", "    " + shlex.join(again)]
