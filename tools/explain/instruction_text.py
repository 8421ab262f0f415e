"""Instructions as a C programmer's listings show them, and what slots are called in words."""
from guest import shown
from instructions import ALL, signed

NAMES = ["zero", "ra", "sp", "gp", "tp", "t0", "t1", "t2", "s0", "s1"]
NAMES += [f"a{index}" for index in range(8)] + [f"s{index}" for index in range(2, 12)]
NAMES += [f"t{index}" for index in range(3, 7)]
SLOT_WORDS = {
    "u1": "bits of its first operand",
    "u2": "bits of its second operand",
    "ad": "bits of an address",
    "rs": "bits of its result",
    "de": "which way a branch went",
    "nr": "bits of the number of a call",
    "a0": "bits of the first argument of a call",
    "a1": "bits of the second argument of a call",
    "a2": "bits of the third argument of a call",
    "in": "bytes of the secret, as they are read",
    "ou": "bytes of the output, as they are written",
    "st": "bits of the exit status",
}


def slot_words(slot):
    """What passes at a slot."""
    if slot in SLOT_WORDS:
        return SLOT_WORDS[slot]
    if slot[0] == "x":
        return f"bits of {NAMES[int(slot[1:])]}, an output of a region"
    return f"bytes of range {slot[1:]}, outputs of a region"


def instruction_text(instruction, address):
    """The text of an instruction at an address; targets are addresses."""
    if instruction is None:
        return "no instruction"
    name, form = instruction.name, instruction.form
    result, first, second = (NAMES[number] for number in instruction[2:5])
    number, target = instruction.immediate, shown((address + instruction.immediate) & ALL)
    if form == "upper":
        return f"{name} {result}, 0x{number >> 12:x}"
    if form == "jump":
        return f"j {target}" if result == "zero" else f"{name} {result}, {target}"
    if form in ("jump_register", "load"):
        is_return = form == "jump_register" and (result, first, number) == ("zero", "ra", 0)
        return "ret" if is_return else f"{name} {result}, {number}({first})"
    if form == "store":
        return f"{name} {second}, {number}({first})"
    if form == "branch":
        return f"{name} {first}, {second}, {target}"
    if form == "register":
        return f"{name} {result}, {first}, {second}"
    if form == "immediate":
        return immediate_text(name, result, first, signed(number & ALL))
    return name


def immediate_text(name, result, first, number):
    """The text of arithmetic with an immediate."""
    if name == "add" and first == "zero":
        return f"li {result}, {number}"
    if name == "add" and number == 0:
        return "nop" if result == "zero" else f"mv {result}, {first}"
    return f"{'sltiu' if name == 'sltu' else name + 'i'} {result}, {first}, {number}"
