"""A walk of `bound` along one path, by the model, that keeps where its choices were made and what the secret bits of
each register and byte are made of: the points with the fewest bits that would all have to cross."""
import copy
from collections import Counter

from bounds import Walk, path_of
from cuts import places_of, slot_width
from guest import PUBLIC
from instructions import ALL, WIDTHS, decode
from verdicts import MOST_BUDGET

DECIDED, ARGUMENTS = ("de", "ou", "st"), {"nr": 17, "a0": 10, "a1": 11, "a2": 12}
# What a value is made of is kept where it has no more bits, and of so many passings.
FEW_BITS, MOST_KEPT = 12, 64
# A loop seems to have no end where one that goes on at the same decision has not ended after so many turns and visits.
MOST_LOOPS, LOOP_TURNS, LOOP_VISITS = 2, 10_000, 300
# Where the public input may be any, its bytes have more bits than any slot: nothing crosses where they are read.
ANY_PUBLIC = {(0, 0, "public"): (1 << 64) - 1}


def bits_of(origin):
    """How many bits an origin has; it is a mask for each of some points."""
    return sum(mask.bit_count() for mask in origin.values())


def united(origins):
    """Several origins together."""
    union = {}
    for origin in origins:
        for point, mask in origin.items():
            union[point] = union.get(point, 0) | mask
    return union


class Passed:
    """What passed at a point: the value that went on, the mask that was left, and the one before bits crossed."""

    def __init__(self, point, value, left, whole):
        self.point, self.value, self.left, self.whole = point, value, left, whole

    def origin(self, before):
        """Its own point, or what it is made of where that has fewer bits."""
        if not self.left:
            return {}
        own = {self.point: self.left & slot_width(self.point[2])}
        return before if before and bits_of(before) < bits_of(own) else own


class TracedWalk(Walk):
    """A walk that keeps its origins, and for each choice the point, the number of its visit and the bit. `begin` is
    where the last turn began, and `kind` what it was."""

    def __init__(self, task, path):
        super().__init__(task, path)
        self.begin, self.kind, self.places = self.guest.pc, self.guest.kind(), []
        self.passed, self.starts, self.at_entry, self.counts, self.consumed = [], [], [], {}, {}
        self.registers, self.bytes = [{}] * 32, {}

    def pass_visit(self, visit, mask):
        """What goes on at a visit, and what is left of its mask; both are kept."""
        point = visit[:3]
        number = self.counts[point] = self.counts.get(point, 0) + 1
        if point[2] not in ("ou", "st"):
            self.places += [(point, number, bit) for bit in places_of(self.task.cut.mask_at(point, number) & mask)]
        value, left = super().pass_visit(visit, mask)
        self.passed.append(Passed(point, value, left, mask))
        return value, left

    @staticmethod
    def origin(passed, before):
        """The origin of what passed and was made of something."""
        return passed.origin(before)

    def make_turn(self):
        """Makes one turn, and follows it with origins."""
        guest, self.begin, self.kind = self.guest, self.guest.pc, self.guest.kind()
        region = guest.entered or guest.by_enter.get(guest.pc)
        self.passed, self.consumed = [], dict(guest.consumed)
        if self.kind == "enter":
            registers = guest.registers
            self.starts = [(registers[base] if base else 0) + offset & ALL for base, offset, _ in region.ranges]
        instruction = decode(guest.word(guest.pc, 4)) if self.kind == "step" else None
        super().make_turn()
        if self.ending:
            return
        if self.kind == "enter" and guest.entered:
            self.at_entry = list(self.registers)
        elif self.kind != "step":
            self.follow_outputs(region, self.kind == "leave")
        elif instruction:
            self.follow(instruction)

    def follow_outputs(self, region, is_left):
        """The origins behind a leave, or a skip, at which nothing is known of what is made inside."""
        for number in region.keep if is_left else []:
            self.registers[number] = self.at_entry[number]
        passed = iter(self.passed)
        for number in region.outs:
            self.registers[number] = self.origin(next(passed), self.registers[number] if is_left else {})
        for start, (_, _, length) in zip(self.starts, region.ranges):
            for address in range(start, start + length):
                self.bytes[address] = self.origin(next(passed), self.bytes.get(address, {}) if is_left else {})

    def at(self, slot):
        """What passed at a slot in this turn."""
        return next(passed for passed in self.passed if passed.point[2] == slot)

    def follow(self, instruction):
        """The origins behind an instruction."""
        form, target = instruction.form, instruction.destination
        if form in ("load", "store"):
            first = self.at("ad").value
            addresses = range(first, first + WIDTHS[instruction.name])
        if form == "store":
            for address in addresses:
                self.bytes[address] = self.stored(address, self.registers[instruction.second])
        elif form == "call":
            self.follow_call()
        elif form == "load":
            before = united(self.bytes.get(address, {}) for address in addresses)
            self.set_register(target, self.origin(self.at("rs"), before))
        elif form in ("immediate", "register"):
            used = [instruction.first] + [instruction.second] * (form == "register")
            self.set_register(target, self.origin(self.at("rs"), united(self.registers[number] for number in used)))
        elif form not in ("branch", "fence", "breakpoint"):
            self.set_register(target, {})

    def stored(self, address, origin):
        """The origin of a byte that was stored."""
        return origin if self.masks.byte(address) else {}

    def set_register(self, number, origin):
        """Keeps the origin of a register."""
        self.registers[number] = origin if number else {}

    def follow_call(self):
        """The origins of the bytes that a call has read; its answer is public."""
        read = [passed for passed in self.passed if passed.point[2] == "in"]
        for index, passed in enumerate(read):
            self.bytes[self.at("a1").value + index] = self.origin(passed, {})
        for index in range(self.guest.consumed[PUBLIC] - self.consumed[PUBLIC]):
            self.bytes[self.at("a1").value + index] = ANY_PUBLIC if self.task.is_any_public else {}
        self.set_register(10, {})

    def missing(self, few=0):
        """The points, with masks, at which what was unclear would have to cross; none for another reason, and none for
        public bytes that are taken as they are. A decision whose operands are made of a few bits, at most so many,
        crosses where they are made."""
        return {point: mask for point, mask in self.wanted(few).items() if point not in ANY_PUBLIC}

    def wanted(self, few):
        """The origin of what was unclear."""
        words = (self.unclear or "").split()
        if words[:1] == ["left"]:
            return self.missing_at((int(words[1]), int(words[2], 16), words[3]), int(words[5], 16), few)
        if words[:1] == ["secret-code"]:
            return united(self.bytes.get(int(words[1], 16) + index, {}) for index in range(4))
        return self.registers[int(words[3][1:])] if words[2:3] == ["base"] else {}

    def missing_at(self, point, mask, few):
        """Those of a slot: itself, or of an address or an argument what it is made of where that has fewer bits."""
        own, slot = {point: mask}, point[2]
        if slot == "de" and few:
            instruction = decode(self.guest.word(self.begin, 4))
            before = united(self.registers[number] for number in (instruction.first, instruction.second))
            return before if before and bits_of(before) <= few else own
        if slot in DECIDED:
            return own
        number = ARGUMENTS[slot] if slot in ARGUMENTS else decode(self.guest.word(self.begin, 4)).first
        before = self.registers[number]
        return before if before and bits_of(before) < bits_of(own) else own


class MakingWalk(TracedWalk):
    """A walk that keeps of which values of a few bits every value is made, also behind what crossed: an origin has
    passings, each a point with the number of its visit, and their masks. `uses` has for each choice, a point with its
    visit, what it was made of."""

    def __init__(self, task, path):
        super().__init__(task, path)
        self.uses = {}

    def pass_visit(self, visit, mask):
        """Passes a visit, and notes of what a choice there is made."""
        before = len(self.places)
        kept = super().pass_visit(visit, mask)
        if len(self.places) > before and self.kind == "step":
            instruction = decode(self.guest.word(self.begin, 4))
            used = [self.registers[number] for number in (instruction.first, instruction.second) if number]
            self.uses[visit[:3], self.counts[visit[:3]]] = united(used)
        return kept

    def origin(self, passed, before):
        """What is made of something is made of that, and is a passing itself."""
        mask = passed.whole & slot_width(passed.point[2])
        if not 0 < mask.bit_count() <= FEW_BITS:
            return before
        kept = dict(list(before.items())[-MOST_KEPT:])
        return kept | {(passed.point, self.counts[passed.point]): mask}

    def stored(self, address, origin):
        """A byte is what was stored, also where it has crossed."""
        return origin


class EndlessWalk(TracedWalk):
    """A walk along a path that chooses one bit at all visits of a decision. `wide` has how many bits the operands might
    have at each."""

    def __init__(self, task, path, point, bit):
        super().__init__(task, path)
        self.point, self.bit, self.wide, self.is_there = point, bit, [], False

    def pass_visit(self, visit, mask):
        """Passes a visit."""
        self.is_there = visit[:3] == self.point
        if self.is_there:
            instruction = decode(self.guest.word(self.begin, 4))
            masks = [self.masks.registers[number] for number in (instruction.first, instruction.second)]
            self.wide.append(max(one.bit_count() for one in masks))
        return super().pass_visit(visit, mask)

    def choose(self):
        """The next bit."""
        bit = super().choose()
        self.choices[-1] = self.bit if self.is_there else bit
        return self.choices[-1]


def endless_of(walk):
    """A decision of an unclear walk at which a loop has no end for the walk, with how many bits its value may have each
    time; None where none is seen."""
    counted = Counter((place[0], bit) for place, bit in zip(walk.places, walk.choices) if place[0][2] == "de")
    for (point, bit), _ in counted.most_common(MOST_LOOPS):
        task = copy.copy(walk.task)
        task.turns, task.budget = min(task.turns, LOOP_TURNS), MOST_BUDGET
        tried = EndlessWalk(task, list(walk.choices), point, bit).run()
        is_endless = tried.made == task.turns and len(tried.wide) > LOOP_VISITS
        if is_endless and tried.wide[-1] and tried.wide[-1] == tried.wide[-2]:
            return point, tried.wide[-1]
    return None


def traced(task, text):
    """The walk of the path that a line of `bound` names."""
    return TracedWalk(task, path_of(text)).run()
