"""Models of `check` that are wrong in one thing each."""
from unittest.mock import patch

import cuts
import guest
import verdicts
from guest import FORMS, Guest, GuestFault, RealGuest, ReplayGuest
from instructions import ALL, OPERATIONS, WIDTHS, compute, remainder, sign_extended, signed
from trials import random_trial

MOST_TURNS = 5000
# what is replaced, for the wrong methods that go on with it
right_guest, right_read, right_skip, right_settle = Guest.__init__, Guest.read, Guest.skip, RealGuest.settle_kept
right_run, right_mask_at = verdicts.RealRun.__init__, cuts.Cut.mask_at


def store_value_first(self, instruction):
    """A store whose value passes before its address register."""
    second = yield self.visit("u2", self.registers[instruction.second])
    first = yield self.visit("u1", self.registers[instruction.first])
    address = yield self.visit("ad", (first + instruction.immediate) & ALL)
    return self.write_word(address, second, WIDTHS[instruction.name])


def store_address_first(self, instruction):
    """A store whose address passes before its value."""
    first = yield self.visit("u1", self.registers[instruction.first])
    address = yield self.visit("ad", (first + instruction.immediate) & ALL)
    second = yield self.visit("u2", self.registers[instruction.second])
    return self.write_word(address, second, WIDTHS[instruction.name])


def jump_register_cleared_late(self, instruction):
    """JALR whose target passes before its bit 0 is cleared."""
    first = yield self.visit("u1", self.registers[instruction.first])
    target = (yield self.visit("ad", (first + instruction.immediate) & ALL)) & ~1
    self.aligned(target)
    self.write_register(instruction.destination, self.following())
    return target


def jump_with_result(self, instruction):
    """JAL that passes its result."""
    yield self.visit("rs", self.following())
    return (yield from Guest.jump(self, instruction))


def upper_with_result(self, instruction):
    """LUI and AUIPC that pass their result."""
    base = self.pc if instruction.name == "auipc" else 0
    result = yield self.visit("rs", (base + instruction.immediate) & ALL)
    self.write_register(instruction.destination, result)
    return self.following()


def immediate_without_x0(self, instruction):
    """Arithmetic with an immediate whose result does not pass where it is written to x0."""
    first = yield self.visit("u1", self.registers[instruction.first])
    result = compute(instruction.name, first, instruction.immediate & ALL)
    if instruction.destination:
        result = yield self.visit("rs", result)
    self.write_register(instruction.destination, result)
    return self.following()


def immediate_patched_register(self, instruction):
    """Arithmetic with an immediate that keeps in its first register what goes on."""
    first = yield self.visit("u1", self.registers[instruction.first])
    if instruction.first:
        self.registers[instruction.first] = first
    result = yield self.visit("rs", compute(instruction.name, first, instruction.immediate & ALL))
    self.write_register(instruction.destination, result)
    return self.following()


def load_passed_bare(self, instruction):
    """A load whose result passes before its sign is extended."""
    first = yield self.visit("u1", self.registers[instruction.first])
    address = yield self.visit("ad", (first + instruction.immediate) & ALL)
    width = WIDTHS[instruction.name]
    if not self.is_inside(address, width):
        raise GuestFault(f"load-outside {guest.shown(self.pc)} address {guest.shown(address)}")
    result = yield self.visit("rs", self.word(address, width))
    if instruction.name in ("lb", "lh"):
        result = sign_extended(result, 8 * width) & ALL
    self.write_register(instruction.destination, result)
    return self.following()


def load_declared_early(self, instruction):
    """A load that breaks its region by its register where it should be stopped by its address."""
    if instruction.destination:
        self.declare_register(instruction.destination)
    return (yield from Guest.load(self, instruction))


def visit_without_region(self, slot, value):
    """Points inside a region have the number 0."""
    return (0, self.pc, slot, value)


def read_public_passed(self, descriptor, address, most):
    """A read that passes the bytes of the public input too."""
    if descriptor != guest.PUBLIC:
        return (yield from right_read(self, descriptor, address, most))
    data, begin = self.inputs[descriptor], self.consumed[descriptor]
    count = min(most, len(data) - begin)
    if count and not self.is_inside(address, count):
        return guest.NO_ADDRESS
    for index in range(count):
        self.memory[address + index] = yield self.visit("in", data[begin + index])
    self.consumed[descriptor] += count
    return count


def read_tested_by_most(self, descriptor, address, most):
    """A read that wants room for all bytes that it may read, not for those that there are."""
    if descriptor in self.inputs and self.consumed[descriptor] < len(self.inputs[descriptor]):
        if most and not self.is_inside(address, most):
            return guest.NO_ADDRESS
    return (yield from right_read(self, descriptor, address, most))


def skip_without_zeros(self):
    """A skip that leaves its outputs as they are."""
    region = self.by_enter[self.pc]
    yield from self.pass_outputs(region, self.starts_of(region))
    self.pc = region.leave


def skip_with_kept(self):
    """A skip that sets the kept registers to 0 too."""
    for number in self.by_enter[self.pc].keep:
        self.registers[number] = 0
    yield from right_skip(self)


def leave_with_new_starts(self):
    """A leave that takes the starts of the ranges from the registers at the leave."""
    region = self.entered
    self.settle_kept(region)
    self.entered = None
    starts = [((self.registers[base] if base else 0) + offset) & ALL for base, offset, _ in region.ranges]
    yield from self.pass_outputs(region, starts)


def pass_ranges_first(self, region, starts):
    """Output points of which the ranges come before the registers."""
    for index, (_, _, length) in enumerate(region.ranges):
        for address in range(starts[index], starts[index] + length):
            self.memory[address] = yield (region.number, region.leave, f"r{index}", self.byte(address))
    for number in region.outs:
        self.registers[number] = yield (region.number, region.leave, f"x{number}", self.registers[number])


def pass_and_forget(self, region, starts):
    """Output points of which nothing goes on."""
    for number in region.outs:
        yield (region.number, region.leave, f"x{number}", self.registers[number])
    for index, (_, _, length) in enumerate(region.ranges):
        for address in range(starts[index], starts[index] + length):
            yield (region.number, region.leave, f"r{index}", self.byte(address))


def settle_from_above(self, region):
    """The highest kept register that has changed is named."""
    with patch.object(region, "keep", region.keep[::-1]):
        right_settle(self, region)


def mask_from_zero(self, point, visit):
    """Visits are counted from 0."""
    return right_mask_at(self, point, max(visit - 1, 1))


def stack_elsewhere(self, *arguments):
    """The stack pointer begins elsewhere."""
    right_guest(self, *arguments)
    self.registers[2] = self.end - 16


def break_not_rounded(self, image, *arguments):
    """The break begins at the highest end of a load."""
    right_guest(self, image, *arguments)
    self.first_break = self.current_break = image.top


def one_turn_more(self, real_guest, limit):
    """The limit is counted without the last turn."""
    right_run(self, real_guest, limit + 1)


def places_from_above(mask):
    """Bits cross highest first."""
    return [1 << index for index in reversed(range(mask.bit_length())) if mask >> index & 1]


WRONG = [
    ("a store passes its value first", FORMS, {"store": store_value_first}),
    ("a store passes its address before its value", FORMS, {"store": store_address_first}),
    ("a target passes before its bit 0 is cleared", FORMS, {"jump_register": jump_register_cleared_late}),
    ("JAL passes its result", FORMS, {"jump": jump_with_result}),
    ("LUI and AUIPC pass their result", FORMS, {"upper": upper_with_result}),
    ("a result for x0 does not pass", FORMS, {"immediate": immediate_without_x0}),
    ("what goes on stays in the operand", FORMS, {"immediate": immediate_patched_register}),
    ("a load passes before its sign is extended", FORMS, {"load": load_passed_bare}),
    ("a load breaks its region before its fault", FORMS, {"load": load_declared_early}),
    ("points inside regions have number 0", Guest, {"visit": visit_without_region}),
    ("bytes of the public input pass", Guest, {"read": read_public_passed}),
    ("a read wants room for what it may read", Guest, {"read": read_tested_by_most}),
    ("a skip leaves outputs as they are", Guest, {"skip": skip_without_zeros}),
    ("a skip sets kept registers to 0", Guest, {"skip": skip_with_kept}),
    ("ranges are taken again at the leave", Guest, {"leave": leave_with_new_starts}),
    ("ranges pass before registers", Guest, {"pass_outputs": pass_ranges_first}),
    ("bits at outputs do not go on", Guest, {"pass_outputs": pass_and_forget}),
    ("the highest kept register is named", RealGuest, {"settle_kept": settle_from_above}),
    ("kept registers are not given back", ReplayGuest, {"settle_kept": lambda *_: None}),
    ("visits are counted from 0", cuts.Cut, {"mask_at": mask_from_zero}),
    ("masks are wider than their slots", cuts, {"slot_width": lambda _: ALL}),
    ("bits cross highest first", verdicts, {"places_of": places_from_above}),
    ("a call that there is not answers -1", guest, {"NO_CALL": -1}),
    ("the stack begins elsewhere", Guest, {"__init__": stack_elsewhere}),
    ("the break is not rounded", Guest, {"__init__": break_not_rounded}),
    ("one turn more than the limit", verdicts.RealRun, {"__init__": one_turn_more}),
    ("SRA fills with zeros", OPERATIONS, {"sra": OPERATIONS["srl"]}),
    ("MULHSU is MULH", OPERATIONS, {"mulhsu": OPERATIONS["mulh"]}),
    ("REM by 0 is 0", OPERATIONS, {"rem": lambda one, other: remainder(one, other) if other else 0}),
    ("DIV rounds down", OPERATIONS, {"div": lambda one, other: signed(one) // signed(other) if other else ALL}),
]


def trials(seeds):
    """The trials of some seeds, with limits to which a wrong model comes soon."""
    commands = [verdicts.Command(*random_trial(seed)) for seed in seeds]
    for command in commands:
        command.limit = min(command.limit, MOST_TURNS)
    return commands


def answer(command):
    """The status and the text of a trial."""
    return verdicts.answer(command.judgements(), command.budget)
