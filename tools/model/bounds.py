"""All outputs that any secret can give: the replay, walked with masks along every string of bits that can cross a cut.

A walk knows of each register and byte the value of the replay and a mask: the bits that may differ in the run of
another secret that has come the same way. Of the bits that cross at a visit those outside the mask are the replay's
own, those of an output are free, and each other one is a choice, the next bit of the path. Where the public input may
be any, its bytes are walked as zeros with masks too.

From one state on everything is the same, but for the turns and the bits that are left. So a walk ends where it comes to
a state all of whose paths are known, and as many turns and bits are left as the longest of them want."""
import collections

from cuts import VisitMasks, places_of, slot_width
from guest import (
    BREAK, EXIT, EXIT_GROUP, READ, SECRET, WRITE, GuestExit, GuestFault, RealGuest, RegionBreak, ReplayGuest,
    ReplayStop, shown,
)
from instructions import ALL, WIDTHS, decode
from region_runs import Endings, NotShown, RegionRun
from rules import loaded_mask, result_mask
from states import Below, Known, Place, copied, fits, meetings_of, repeating
from verdicts import walk

MOST_BYTES, MOST_SHOWN = 67_108_864, 1 << 64
ANSWER, NUMBER, PUBLIC_MASK = 10, 17, 255
IMPLICIT = ("ad", "de", "nr", "a0", "a1", "a2", "ou", "st")


class Unclear(Exception):
    """The walk of a path ends so that nothing is known of all secrets; the text is the reason."""


class HeldGuest(ReplayGuest):
    """The guest of a walk with which regions are to hold: what would break one ends the walk."""

    def __init__(self, *arguments):
        super().__init__(*arguments)
        self.masks = None

    def settle_kept(self, region):
        """Every kept register must be what it was at the entry, and neither then nor now may a bit of it differ."""
        for number in region.keep:
            is_open = self.masks.registers[number] or self.masks.at_entry[number]
            before, after = self.at_entry[number], self.registers[number]
            if is_open or before != after:
                text = f"keep x{number} before {shown(before)} after {shown(after)}"
                raise RegionBreak(f"region {region.number} {text}")

    declare_register, declare_bytes = RealGuest.declare_register, RealGuest.declare_bytes
    declare_call = RealGuest.declare_call


class TurnMasks:
    """The masks of a walk. A turn is a coroutine beside that of the guest: at each visit it yields the mask of the
    value, and it is sent the value that goes on with the mask that is left."""

    def __init__(self, table, guest, public_mask=0):
        self.table, self.guest, self.public_mask = table, guest, public_mask
        self.registers, self.bytes, self.at_entry, self.consumed = [0] * 32, {}, [], {}

    def byte(self, address):
        """The mask of a byte."""
        return self.bytes.get(address, 0)

    def set_register(self, number, mask):
        """Keeps a register's mask; x0 has none."""
        if number:
            self.registers[number] = mask

    def look_at_bases(self, region):
        """A range must not begin where a secret says."""
        for base, _, _ in region.ranges:
            if base and self.registers[base]:
                raise Unclear(f"region {region.number} base x{base} secret")

    def look_at_code(self):
        """An instruction must not be made of secrets."""
        pc = self.guest.pc
        if any(self.byte(address) for address in range(pc, pc + 4)):
            raise Unclear(f"secret-code {shown(pc)}")

    def turn(self, is_skipped):
        """The turn that the guest makes next."""
        guest, kind = self.guest, self.guest.kind()
        self.consumed = dict(guest.consumed)
        if kind == "enter":
            region = guest.by_enter[guest.pc]
            self.look_at_bases(region)
            return self.skip(region) if is_skipped else self.enter()
        if kind == "leave":
            return self.leave(guest.entered)
        if not guest.is_inside(guest.pc, 4):
            return self.nothing(None)
        self.look_at_code()
        instruction = decode(guest.word(guest.pc, 4))
        return FORMS[instruction.form](self, instruction) if instruction else self.nothing(None)

    def enter(self):
        """The entry of a region: its masks may come back at the leave."""
        self.at_entry = list(self.registers)
        yield from ()

    def leave(self, region):
        """The leave: kept registers have the masks of the entry, and outputs pass with their own."""
        for number in region.keep:
            self.registers[number] = self.at_entry[number]
        yield from self.pass_outputs(region, self.guest.starts, lambda slot, mask: mask)

    def skip(self, region):
        """The skip: outputs pass with every bit of their slots."""
        registers = list(self.guest.registers)
        starts = [((registers[base] if base else 0) + offset) & ALL for base, offset, _ in region.ranges]
        return self.pass_outputs(region, starts, lambda slot, mask: slot_width(slot))

    def pass_outputs(self, region, starts, mask_of):
        """Passes the outputs of a region, each with a mask of its slot and of what it had; what is left is kept."""
        for number in region.outs:
            _, self.registers[number] = yield mask_of(f"x{number}", self.registers[number])
        for index, (_, _, length) in enumerate(region.ranges):
            for address in range(starts[index], starts[index] + length):
                _, self.bytes[address] = yield mask_of(f"r{index}", self.byte(address))

    def use(self, number):
        """Passes the value of a register: the value that goes on and the mask that is left."""
        return (yield self.registers[number])

    def address(self, instruction, first):
        """Passes an address, or the target of JALR: the value that goes on."""
        mask = result_mask(self.table, "add", first, (instruction.immediate & ALL, 0))
        value, _ = yield mask & ~1 if instruction.form == "jump_register" else mask
        return value

    def clear(self, instruction):
        """LUI, AUIPC and JAL, whose results are public."""
        yield from ()
        self.set_register(instruction.destination, 0)

    def nothing(self, _):
        """FENCE and EBREAK, which pass nothing."""
        yield from ()

    def jump_register(self, instruction):
        """JALR."""
        first = yield from self.use(instruction.first)
        yield from self.address(instruction, first)
        self.set_register(instruction.destination, 0)

    def branch(self, instruction):
        """A branch."""
        first = yield from self.use(instruction.first)
        second = yield from self.use(instruction.second)
        yield result_mask(self.table, instruction.name, first, second) & 1

    def load(self, instruction):
        """A load, whose result has the masks of the bytes."""
        first = yield from self.use(instruction.first)
        address = yield from self.address(instruction, first)
        masks = [self.byte(address + index) for index in range(WIDTHS[instruction.name])]
        _, left = yield loaded_mask(instruction.name, masks)
        self.set_register(instruction.destination, left)

    def store(self, instruction):
        """A store, whose bytes have their parts of the value's mask."""
        first = yield from self.use(instruction.first)
        _, mask = yield from self.use(instruction.second)
        address = yield from self.address(instruction, first)
        for index in range(WIDTHS[instruction.name]):
            self.bytes[address + index] = mask >> 8 * index & 255

    def immediate(self, instruction):
        """Arithmetic with an immediate, which is public."""
        first = yield from self.use(instruction.first)
        _, left = yield result_mask(self.table, instruction.name, first, (instruction.immediate & ALL, 0))
        self.set_register(instruction.destination, left)

    def register(self, instruction):
        """Arithmetic with two registers."""
        first = yield from self.use(instruction.first)
        second = yield from self.use(instruction.second)
        _, left = yield result_mask(self.table, instruction.name, first, second)
        self.set_register(instruction.destination, left)

    def call(self, _):
        """ECALL, whose answer is public."""
        number, _ = yield from self.use(NUMBER)
        if number in (EXIT, EXIT_GROUP):
            yield self.registers[ANSWER] & 255
            return
        arguments = []
        for index in range({READ: 3, WRITE: 3, BREAK: 1}.get(number, 0)):
            arguments.append((yield from self.use(ANSWER + index))[0])
        if number in (READ, WRITE):
            yield from self.transfer(number, *arguments)
        self.registers[ANSWER] = 0

    def transfer(self, number, descriptor, address, count):
        """The bytes of a read or a write at an address. The guest has passed a byte before its mask is asked for."""
        guest = self.guest
        if number == WRITE:
            is_written = descriptor in (1, 2) and guest.is_inside(address, count)
            for index in range(count if is_written else 0):
                yield self.byte(address + index)
            return
        begin = self.consumed.get(descriptor, 0)
        most = min(count, len(guest.inputs.get(descriptor, b"")) - begin)
        is_read = most > 0 and guest.is_inside(address, most)
        for index in range(most if is_read else 0):
            self.bytes[address + index] = (yield 255)[1] if descriptor == SECRET else self.public_mask


FORMS = {form: getattr(TurnMasks, form) for form in (
    "jump_register", "branch", "load", "store", "immediate", "register", "call"
)} | {"upper": TurnMasks.clear, "jump": TurnMasks.clear, "fence": TurnMasks.nothing, "breakpoint": TurnMasks.nothing}


class Walk:
    """A walk along a path, 0 behind its last bit: the choices and turns that it made, how many bits crossed, the masks
    of its output, how many entries and leaves of regions it made, and how it ended: `exited` with a status, `stopped`
    with a text, or `met` with what is below a state. It may be `Unclear`."""

    def __init__(self, task, path):
        inputs = task.walked_public(), bytes(task.cut.secret_length), task.regions
        self.guest = (HeldGuest if task.holds else ReplayGuest)(task.image, *inputs)
        self.cut_masks = VisitMasks(task.cut)
        self.masks = self.guest.masks = TurnMasks(task.table, self.guest, PUBLIC_MASK if task.is_any_public else 0)
        self.endings, self.output = None, 0
        self.task, self.path, self.choices, self.crossed, self.free, self.regions = task, path, [], 0, [], 0
        self.made, self.ending, self.unclear = 0, None, None
        self.repeating = {point: repeating(*masks) for point, masks in task.cut.points.items()}
        self.addresses = {address for _, address, slot in task.cut.points if slot not in ("ou", "st")}

    def copied(self, path):
        """The same walk, to go on along another path that begins with the same choices."""
        other = copied(self)
        other.guest, other.cut_masks, other.masks = map(copied, (self.guest, self.cut_masks, self.masks))
        other.masks.guest, other.guest.masks, other.path = other.guest, other.masks, path
        return other

    def run(self, meet=lambda walk: None):
        """Walks to the end, or until what is below it is known. That is asked for before each turn that may choose,
        behind the choices of the path."""
        try:
            while not self.ending and self.made < self.task.turns:
                below = meet(self) if self.may_choose() and len(self.choices) >= len(self.path) else None
                if below:
                    self.ending = ("met", below)
                else:
                    self.make_turn()
            self.ending = self.ending or ("stopped", f"turns {self.task.turns}")
        except Unclear as unclear:
            self.unclear = str(unclear)
        return self

    def may_choose(self):
        """Whether a point may be visited in the next turn at which bits are chosen."""
        guest = self.guest
        if guest.kind() != "enter":
            return guest.pc in self.addresses
        region = guest.by_enter[guest.pc]
        return region.number in self.task.cut.skip and region.leave in self.addresses

    def make_turn(self):
        """Makes one turn."""
        self.made += 1
        guest, task = self.guest, self.task
        self.regions += guest.kind() != "step"
        is_skipped = guest.kind() == "enter" and guest.by_enter[guest.pc].number in task.cut.skip
        masks = self.masks.turn(is_skipped)
        try:
            self.endings = self.hold() if is_skipped and task.holds else None
            self.walk_turn(guest.turn(is_skipped), masks)
        except GuestExit as exited:
            self.ending = ("exited", exited.status)
        except GuestFault as fault:
            self.ending = ("stopped", f"guest {fault}")
            return
        except ReplayStop as stop:
            self.ending = ("stopped", str(stop))
            return
        except (RegionBreak, NotShown) as reason:
            raise Unclear(f"hold {reason}") from None
        if self.crossed > task.budget:
            raise Unclear(f"budget {task.budget} needed {self.crossed}")

    def hold(self):
        """The endings of the region that is skipped next, whose turns count."""
        guest, task = self.guest, self.task
        region, left = guest.by_enter[guest.pc], task.turns - self.made + 1
        run = RegionRun(task.table, guest, self.masks, region, guest.starts_of(region), left, task.turns)
        task.runs.append(run)
        self.made, self.output = self.made + run.turns - 1, 0
        return Endings(run.endings)

    def walk_turn(self, turn, masks):
        """Walks the turn of the guest and that of the masks side by side."""
        kept = None

        def respond(visit):
            nonlocal kept
            kept = self.pass_visit(visit, masks.send(kept))
            return kept[0]

        walk(turn, respond)
        try:
            masks.send(kept)
        except StopIteration:
            return
        raise AssertionError("a mask that no visit has")

    def pass_output(self, crossing):
        """What goes on of the next output of a region that holds, and its mask: a bit that has one value in all endings
        that are possible is known; of the others those that cross are chosen."""
        index, self.output = self.output, self.output + 1
        chosen = 0
        for place in places_of(crossing):
            bit = place.bit_length() - 1
            value = self.endings.known(index, bit)
            if value is None:
                value = self.choose()
                self.endings.keep(index, bit, value)
            chosen |= place * value
        bits = self.endings.bits(index)
        return bits.value & ~crossing | chosen, bits.mask & ~crossing

    def pass_visit(self, visit, mask):
        """What goes on at a visit whose value has this mask, and what is left of the mask."""
        slot, value, crossing = visit[2], visit[3], self.cut_masks.mask_of(visit)
        self.crossed += crossing.bit_count()
        if self.endings:
            return self.pass_output(crossing)
        is_output = slot in ("ou", "st")
        for place in places_of(crossing & mask):
            bit = 0 if is_output else self.choose()
            value = value & ~place | place * bit
        left = mask & ~crossing
        if left and slot in IMPLICIT:
            raise Unclear(f"left {visit[0]} {shown(visit[1])} {slot} mask {shown(left)}")
        if is_output:
            self.free.append(crossing & mask)
        return value, left

    def choose(self):
        """The next bit of the path."""
        place = len(self.choices)
        self.choices.append(self.path[place] if place < len(self.path) else 0)
        return self.choices[-1]

    def pattern(self):
        """The bytes, the status, and the masks of the free bits of both."""
        return bytes(self.guest.output), self.ending[1], bytes(self.free[:-1]), self.free[-1]


class Task:
    """What is walked: a program on its public input, or on any of that length, its regions, a cut, the table of the
    rules, the limits, and whether regions are to hold: then `runs` are those of regions that did."""

    def __init__(self, image, public, regions, cut, table, budget, turns, paths, is_any_public=False, holds=False):
        self.image, self.public, self.regions, self.cut, self.table = image, public, regions, cut, table
        self.budget, self.turns, self.paths, self.is_any_public = budget, turns, paths, is_any_public
        self.holds, self.runs = holds, []

    def walked_public(self):
        """The public input of the walks: zeros where it may be any."""
        return bytes(len(self.public)) if self.is_any_public else self.public

    def lengths(self):
        """The number of secret bytes, and of public ones where these may be any, as a headline has them."""
        public = f" public {len(self.public)}" if self.is_any_public else ""
        return f"secret {self.cut.secret_length}{public}"


def behind(choices):
    """The path that is next in order, or None."""
    while choices and choices[-1]:
        choices.pop()
    return choices[:-1] + [1] if choices else None


def path_text(choices):
    """The choices of a path, as they are printed."""
    packed = bytearray((len(choices) + 7) // 8)
    for index, bit in enumerate(choices):
        packed[index // 8] |= bit << index % 8
    return f"path {packed.hex() or '-'} bits {len(choices)}"


def path_of(text):
    """The choices of the path that a line of `bound` names."""
    words = text.split()
    place = words.index("path")
    packed, count = words[place + 1], int(words[place + 3])
    data = b"" if packed == "-" else bytes.fromhex(packed)
    return [data[index // 8] >> index % 8 & 1 for index in range(count)]


def has_enough(walks, most):
    """Whether no more walks may be made."""
    return walks == most


def counted(number):
    """A number as it is printed."""
    return str(number) if number < MOST_SHOWN else "-"


class Bounds:
    """The paths of a task: how many there are, how many stop, the first that does, and the patterns in the order in
    which they were found with the bytes that they have together, the choices of the last walk and of the first path
    that stops; or the text of what is unclear, and how many paths there are up to that one, or at least. At most so
    many walks are made, those of the task without a number; without `is_meeting` each path is walked from the start.
    `meetings` counts the states that walks come to again, by kind."""

    def __init__(self, task, most=None, is_meeting=True):
        self.task, self.most, self.is_meeting = task, most or task.paths, is_meeting
        self.walks, self.meetings, self.paths, self.stopped, self.first = 0, collections.Counter(), 0, 0, None
        self.patterns, self.size, self.unclear, self.last, self.stopped_at = {}, 0, None, [], None
        self.open, self.known, path = [], {}, []
        while path is not None and not self.unclear:
            path = self.follow(path)

    def follow(self, path):
        """Makes the walk along a path from the last open place; the path that is next in order, if there is one."""
        begun = self.open[-1].walk.copied(path) if self.open else Walk(self.task, path)
        ended = begun.run(self.meet) if self.is_meeting else begun.run()
        self.last, self.walks = ended.choices, self.walks + 1
        reason, later = ended.unclear or self.add(ended), behind(list(ended.choices))
        if not reason and later is not None and has_enough(self.walks, self.most):
            reason = f"paths {self.walks}"
        self.paths += reason is not None and not reason.startswith("outputs")
        self.unclear = f"{path_text(ended.choices)} {reason}" if reason else None
        self.close(len(later or []))
        return later

    def meet(self, walk):
        """What is below a walk, where its state is known; else it is an open place. One at which no bit was chosen is
        left out."""
        place = Place(walk)
        if self.open and len(self.open[-1].walk.choices) == len(walk.choices):
            self.open.pop()
        known = self.known.get(place.state)
        if known:
            self.meetings.update(meetings_of(walk, known, fits(walk, known.below)))
        if known and fits(walk, known.below):
            return known.below
        self.open.append(place)
        return None

    def close(self, length):
        """All paths below the places behind so many choices are done."""
        while self.open and len(self.open[-1].walk.choices) >= length:
            place = self.open.pop()
            if place.is_known:
                self.known[place.state] = Known(place.below(), place.walk.made, place.walk.crossed)

    def add(self, ended):
        """Adds what a walk has come to; a reason where the patterns have too many bytes."""
        kind, what = ended.ending
        below = what if kind == "met" else Below(1, int(kind == "stopped"), 0, 0)
        self.paths, self.stopped = self.paths + below.paths, self.stopped + below.stopped
        for place in self.open:
            place.add(ended, below)
        if kind == "stopped":
            self.stopped_at = self.stopped_at or ended.choices
            self.first = self.first or f"stopped {path_text(ended.choices)} {what}"
        if kind != "exited":
            return None
        pattern = ended.pattern()
        if pattern not in self.patterns:
            self.patterns[pattern] = len(self.patterns) + 1
            self.size += len(pattern[0]) + 1
        return f"outputs {MOST_BYTES}" if self.size > MOST_BYTES else None

    def outputs(self):
        """The number of outputs for which a pattern stands."""
        return sum(1 << free_bits(pattern) for pattern in self.patterns)

    def text(self, is_listed):
        """The status and the text of the answer."""
        if self.unclear:
            return 1, f"unclear {self.unclear}\n"
        outputs, task = self.outputs(), self.task
        lines = []
        if is_listed:
            lines = [pattern_text(place, pattern) for pattern, place in self.patterns.items()]
            lines += [self.first] if self.first else []
        bits = (outputs - 1).bit_length() if outputs else 0
        lines.append(
            f"bounded {task.lengths()} regions {len(task.regions)}{' held' * task.holds} paths {counted(self.paths)} "
            f"stopped {counted(self.stopped)} outputs {counted(outputs)} bits {bits}"
        )
        return 0, "\n".join(lines) + "\n"


def free_bits(pattern):
    """How many bits of a pattern are free."""
    return sum(mask.bit_count() for mask in pattern[2]) + pattern[3].bit_count()


def pattern_text(place, pattern):
    """The line of a pattern."""
    written, status, masks, status_mask = pattern
    free = free_bits(pattern)
    text = f"output {place} free {free} bytes {written.hex() or '-'} status {status}"
    return f"{text} mask {masks.hex() or '-'} {status_mask:02x}" if free else text


def stands_for(pattern, written, status):
    """Whether a pattern stands for an output."""
    if len(written) != len(pattern[0]) or (status ^ pattern[1]) & ~pattern[3]:
        return False
    return all((byte ^ other) & ~mask == 0 for byte, other, mask in zip(written, pattern[0], pattern[2]))
