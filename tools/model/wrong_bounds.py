"""Models of `bound` that are wrong in one thing each."""
import random

import bounds
import rules
import states
from bound_trials import Wanted, bound_trial, lacking, task_of
from bounds import Bounds, Task, TurnMasks, Walk
from cuts import places_of, slot_width
from guest import SECRET
from instructions import ALL
from kept_guests import kept_trials
from met_guests import met_trials
from public_guests import public_trials
from range_guests import range_trials
from rules import TABLE_3
from states import Place
from trial_pairs import tried_pairs
from verdicts import judge, real_run

SECRETS = 20
right_choose = Walk.choose
right_leave, right_visit, right_call = TurnMasks.leave, Walk.pass_visit, TurnMasks.call
right_meet, right_add, right_fits = Bounds.meet, Place.add, bounds.fits
right_load, right_store, right_transfer = TurnMasks.load, TurnMasks.store, TurnMasks.transfer


def blind_to(slot):
    """A model that does not look at a slot that decides."""
    return {"IMPLICIT": tuple(one for one in bounds.IMPLICIT if one != slot)}


def leave_without_keep(self, region):
    """Kept registers keep the masks of the region."""
    self.at_entry = list(self.registers)
    yield from right_leave(self, region)


def leave_clear(self, region):
    """Kept registers are clear."""
    self.at_entry = [0] * 32
    yield from right_leave(self, region)


def leave_whole(self, region):
    """Outputs of a region that is left have every bit."""
    for number in region.keep:
        self.registers[number] = self.at_entry[number]
    yield from self.pass_outputs(region, self.guest.starts, lambda slot, mask: slot_width(slot))


def skip_with_own(self, region):
    """Outputs of a region that is skipped have the masks of before."""
    registers = list(self.guest.registers)
    starts = [(registers[base] if base else 0) + offset & ALL for base, offset, _ in region.ranges]
    return self.pass_outputs(region, starts, lambda slot, mask: mask)


def visit_uncleared(self, visit, mask):
    """What has crossed is not cleared."""
    return right_visit(self, visit, mask)[0], mask


def visit_counting(self, visit, mask):
    """Of the bits that cross those alone count that may differ."""
    before = len(self.choices) + sum(free.bit_count() for free in self.free)
    crossed = self.crossed
    answered = right_visit(self, visit, mask)
    self.crossed = crossed + len(self.choices) + sum(free.bit_count() for free in self.free) - before
    return answered


def choose_first(self):
    """The first choice of a walk is always 0."""
    if self.choices:
        return right_choose(self)
    self.choices.append(0)
    return 0


def load_one(self, instruction):
    """The result of a load has the mask of the lowest byte alone."""
    right_byte, first = self.byte, self.guest.registers[instruction.first] + instruction.immediate & ALL
    self.byte = lambda address: right_byte(address) if address == first else 0
    yield from right_load(self, instruction)
    del self.byte


def store_one(self, instruction):
    """A store of several bytes changes the mask of the lowest alone."""
    before = dict(self.bytes)
    yield from right_store(self, instruction)
    changed = [address for address in self.bytes if self.bytes[address] != before.get(address, 0)]
    for address in sorted(changed)[1:]:
        self.bytes[address] = before.get(address, 0)


def use_uncleared(self, number):
    """An operand goes on with the mask of its register."""
    mask = self.registers[number]
    value, _ = yield mask
    return value, mask


def transfer_public(self, number, descriptor, address, count):
    """A read of the public input leaves the masks of the bytes."""
    before = dict(self.bytes)
    yield from right_transfer(self, number, descriptor, address, count)
    if number == bounds.READ and descriptor != SECRET:
        self.bytes.update(before)


def ruled(**wrong):
    """Other rules of table 3, without bits where none is secret."""
    return {name: rules.if_secret(rule) for name, rule in wrong.items()}


def least_of(rule):
    """A rule that takes the least that an operand can be for the greatest."""
    return lambda v1, m1, v2, m2: rule(v1 & ~m1, 0, v2 & ~m2, 0)


def divided_by_0(v1, m1, v2, m2):
    """A quotient whose divisor may be 0 is between those by the others."""
    return rules.spanned_quotient(v1, m1, v2, m2) if v2 & ~m2 else rules.spanned_quotient(v1, m1, v2 | 1, m2 & ~1)


def left_by_0(v1, m1, v2, m2):
    """A remainder whose divisor may be 0 is less than the greatest divisor."""
    return rules.span(0, min(v1 | m1, max(v2 | m2, 1) - 1))


def part_without(part, less):
    """The parts by which states are told apart, of which one tells less."""
    return {"PARTS": [less if one is part else one for one in states.PARTS]}


def entry_without_registers(walk):
    """The entered region alone, without the registers of its entry."""
    return walk.guest.entered and walk.guest.entered.number


def meet_open(self, walk):
    """An open state is met with what is known below it by then."""
    found = right_meet(self, walk)
    if found is None:
        place = self.open[-1]
        others = [other for other in self.open[:-1] if other.state == place.state and other.paths]
        if others:
            self.open.pop()
            return others[-1].below()
    return found


def fits_with(**less):
    """A state is met as if less were below it."""
    return lambda walk, below: right_fits(walk, below._replace(**less))


def add_unstopped(self, walk, below):
    """Paths that stop are not counted below a state."""
    right_add(self, walk, below._replace(stopped=0))


def call_kept(self, instruction):
    """The answer of a call has the mask of its first argument."""
    mask = self.registers[bounds.ANSWER]
    yield from right_call(self, instruction)
    self.registers[bounds.ANSWER] = mask


WRONG = [
    *((f"{slot} is not looked at", bounds, blind_to(slot)) for slot in bounds.IMPLICIT),
    ("kept registers keep the masks of the region", TurnMasks, {"leave": leave_without_keep}),
    ("kept registers are clear behind a region", TurnMasks, {"leave": leave_clear}),
    ("outputs of every region have all bits", TurnMasks, {"leave": leave_whole}),
    ("outputs of a skipped region have their own masks", TurnMasks, {"skip": skip_with_own}),
    ("what crosses is not cleared", Walk, {"pass_visit": visit_uncleared}),
    ("bits that may not differ do not count", Walk, {"pass_visit": visit_counting}),
    ("the first choice is always 0", Walk, {"choose": choose_first}),
    ("the highest bit is chosen first", bounds, {"places_of": lambda mask: places_of(mask)[::-1]}),
    ("one path alone is walked", bounds, {"behind": lambda choices: None}),
    ("a load has the mask of one byte", bounds.FORMS, {"load": load_one}),
    ("a store changes the mask of one byte", bounds.FORMS, {"store": store_one}),
    ("operands go on with the masks of their registers", TurnMasks, {"use": use_uncleared}),
    ("a public read leaves masks", TurnMasks, {"transfer": transfer_public}),
    ("the answer of a call has a mask", bounds.FORMS, {"call": call_kept}),
    ("code is not looked at", TurnMasks, {"look_at_code": lambda self: None}),
    ("bases are not looked at", TurnMasks, {"look_at_bases": lambda self, region: None}),
    ("free bits are not counted", bounds, {"free_bits": lambda pattern: 0}),
    ("states are told apart without masks", states, part_without(states.masks_part, lambda walk: None)),
    ("states are told apart without visits", states, part_without(states.visits_part, lambda walk: None)),
    ("states are told apart without what was written", states, part_without(states.shown_part, lambda walk: None)),
    ("states are told apart without the entry", states, part_without(states.entry_part, lambda walk: None)),
    ("states are told apart without the entry's registers", states, part_without(
        states.entry_part, entry_without_registers)),
    ("an open state is met", Bounds, {"meet": meet_open}),
    ("a state below which paths end by the limit of turns is met", states, {"is_late": lambda walk: False}),
    ("a state is met with fewer turns left", bounds, {"fits": fits_with(turns=0)}),
    ("bits below a state are not added", bounds, {"fits": fits_with(bits=0)}),
    ("stops below a state are not counted", Place, {"add": add_unstopped}),
    ("a public byte that may be any is clean", bounds, {"PUBLIC_MASK": 0}),
    ("the public input is walked as it is given", Task, {"walked_public": lambda task: task.public}),
    ("quotients take the least for the greatest", TABLE_3, ruled(divu=least_of(rules.spanned_quotient))),
    ("remainders take the least for the greatest", TABLE_3, ruled(remu=least_of(rules.spanned_remainder))),
    ("high halves take the least for the greatest", TABLE_3, ruled(mulhu=least_of(rules.spanned_high))),
    ("shifts take the least for the greatest", TABLE_3, ruled(srl=least_of(TABLE_3["srl"]))),
    ("a divisor of a quotient may be 0", TABLE_3, ruled(divu=divided_by_0)),
    ("a divisor of a remainder may be 0", TABLE_3, ruled(remu=left_by_0)),
    ("bit 31 of a quotient's operands may differ", TABLE_3, ruled(div=rules.spanned_quotient)),
    ("bit 31 of a remainder's operands may differ", TABLE_3, ruled(rem=rules.spanned_remainder)),
    ("bit 31 of a product's operands may differ", TABLE_3, ruled(mulh=rules.spanned_high)),
    ("bit 31 of a product's first operand may differ", TABLE_3, ruled(mulhsu=rules.spanned_high)),
    ("a span lacks its lowest bits", rules, {"span": lambda first, second: first ^ second}),
    ("a product of more than 32 bits has a span", TABLE_3, ruled(mul=lambda v1, m1, v2, m2: rules.narrow_multiply(
        v1, m1, v2, m2) & rules.span((v1 & ~m1) * (v2 & ~m2), (v1 | m1) * (v2 | m2)))),
    ("a walk too few is made", bounds, {"has_enough": lambda walks, most: walks + 1 >= most}),
]


class Trial:
    """A trial: its task, and public inputs and secrets with their runs."""

    def __init__(self, name, files, words):
        self.name, self.task = name, task_of(files, words)
        dice = random.Random(f"secrets {name}")
        self.pairs = [(public, secret) for public, some in tried_pairs(dice, self.task, SECRETS) for secret in some]
        self.runs = None

    def run(self, pair):
        """The run of a public input and a secret, and whether it is accepted."""
        task = self.task
        real = real_run(task.image, *pair, task.regions, task.turns)
        judged = judge(task.image, *pair, task.regions, task.cut, task.budget, task.turns, real)
        return real, judged.word == "accepted"

    def is_refuted(self, found):
        """Whether the secrets refute an answer."""
        if found.unclear:
            return False
        if found.outputs() > 1 << self.task.budget:
            return True
        self.runs = self.runs or list(map(self.run, self.pairs))
        is_of_all = not self.task.regions and not found.stopped
        for real, is_accepted in self.runs:
            if real.ending[0] != "exited":
                if is_of_all:
                    return True
                continue
            output = bytes(real.guest.output), real.ending[1]
            if not is_accepted or not any(bounds.stands_for(pattern, *output) for pattern in found.patterns):
                return True
        return False


def trials_of(seed, wanted=Wanted()):
    """The trial of a seed, and where that is bounded and has points, the one without one of them."""
    files, words = bound_trial(seed, wanted)
    trial = Trial(seed, files, words)
    without = None if Bounds(trial.task).unclear else lacking(seed, files, trial.task)
    return [trial] + ([Trial(seed, without, words)] if without else [])


def trials(seeds):
    """The trials of some seeds, a third as many of any public input, and those that were made by hand."""
    by_hand = kept_trials() + met_trials() + public_trials() + range_trials()
    made = [Trial(name, files, line) for name, files, line, _ in by_hand]
    for seed in seeds:
        made += trials_of(seed)
    for seed in seeds[: len(seeds) // 3]:
        made += trials_of(seed, Wanted(is_any_public=True))
    return made


def answer(trial):
    """The answer to a trial, and whether its secrets refute it."""
    found = Bounds(trial.task)
    return found.text(True), trial.is_refuted(found)
