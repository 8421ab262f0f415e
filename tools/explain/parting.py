"""Where the paths of `bound` stay apart, by the model: the decision at which most states are seen along some walks, and
what differs between them there, with the places where that was written.

Some walks are made along strings of bits that are drawn by a seed. Of each decision the states of the same visit are
set beside one another."""
import copy
import random
from collections import Counter

from bounds import Walk
from cuts import places_of
from guest import READ
from instruction_text import NAMES, instruction_text
from instructions import ALL, WIDTHS, decode
from states import entry_part, guest_part, masks_part, shown_part, visits_part

MOST_WALKS, MOST_TURNS, MOST_BITS, MOST_READ, MOST_TOLD = 48, 200_000, 4096, 4096, 4
PARTS = [guest_part, masks_part, shown_part, entry_part, visits_part]
REGISTERS, BYTES, OUTPUT, INPUTS, VISITS = "registers", "bytes", "output", "inputs", "visits"


class DrawnWalk(Walk):
    """A walk along a drawn string that notes each turn at which bits were chosen: `look` is given the first point of
    the turn, the number of its visit, and the state before the turn. `writers` has the instruction that wrote a
    register or a byte last."""

    def __init__(self, task, number, look):
        dice = random.Random(f"parting {number}")
        super().__init__(task, [dice.randrange(2) for _ in range(MOST_BITS)])
        self.look, self.writers, self.visits, self.chosen = look, {}, Counter(), []

    def pass_visit(self, visit, mask):
        """Passes a visit, and keeps its point where a bit is chosen."""
        point = visit[:3]
        self.visits[point] += 1
        if point[2] not in ("ou", "st"):
            crossing = self.task.cut.mask_at(point, self.visits[point])
            self.chosen += [(point, self.visits[point])] * bool(places_of(crossing & mask))
        return super().pass_visit(visit, mask)

    def make_turn(self):
        """Makes a turn; where bits are chosen in it, the state before it is looked at."""
        self.chosen = []
        state = [part(self) for part in PARTS] if self.may_choose() else None
        address, written = self.guest.pc, self.written()
        super().make_turn()
        if self.chosen:
            self.look(*self.chosen[0], state, self.writers)
        for place in written:
            self.writers[place] = address

    def written(self):
        """The registers, by their numbers, and the bytes, as pairs, that the next instruction writes."""
        guest = self.guest
        is_step = guest.kind() == "step" and guest.is_inside(guest.pc, 4)
        instruction = decode(guest.word(guest.pc, 4)) if is_step else None
        if instruction is None:
            return []
        if instruction.form == "store":
            first = guest.registers[instruction.first] + instruction.immediate & ALL
            return [("byte", first + index) for index in range(WIDTHS[instruction.name])]
        if instruction.form == "call":
            first, count = guest.registers[11], guest.registers[12] if guest.registers[17] == READ else 0
            return [10] + [("byte", first + index) for index in range(min(count, MOST_READ))]
        return [instruction.destination] if instruction.form != "branch" else []


class States:
    """The states that some walks have seen: for each visit of a point the different ones, by their hashes."""

    def __init__(self, task):
        self.task, self.seen = copy.copy(task), {}
        self.task.turns = min(task.turns, MOST_TURNS)
        self.walk_all(self.look)

    def walk_all(self, look):
        """Makes the walks, until so many turns were made."""
        turns = 0
        for number in range(MOST_WALKS):
            walk = DrawnWalk(self.task, number, look).run()
            turns += walk.made
            if turns > MOST_TURNS:
                break

    def look(self, point, visit, state, _):
        """Counts a state."""
        self.seen.setdefault(point, {}).setdefault(visit, set()).add(hash(tuple(state)))

    def counts(self):
        """How many states were seen at each point, counted visit by visit."""
        return Counter({point: sum(map(len, visits.values())) for point, visits in self.seen.items()})

    def widest(self):
        """The point at which most states part, with how many there are, or None where there is no such point."""
        counts = self.counts()
        apart = [point for point in counts if any(len(states) > 1 for states in self.seen[point].values())]
        best = max(apart, key=lambda point: (counts[point], -point[1]), default=None)
        return (best, counts[best]) if best else None


class Differences:
    """What differs between the states at a point: by kind, the instructions that wrote it last, with how often."""

    def __init__(self, states, point):
        self.point, self.first, self.kinds = point, {}, {kind: Counter() for kind in
                                                         (BYTES, REGISTERS, OUTPUT, INPUTS, VISITS)}
        states.walk_all(self.look)

    def look(self, point, visit, state, writers):
        """Sets a state beside the first of the same visit."""
        if point == self.point:
            first, earlier = self.first.setdefault(visit, (state, dict(writers)))
            if first is not state:
                self.compare(first, state, earlier | writers)

    def compare(self, first, state, writers):
        """Adds what differs between two states."""
        (one, changed, _, _, read), (other, also, _, _, read_also) = first[0], state[0]
        (masks, bytes_masks), (masks_also, bytes_masks_also) = first[1], state[1]
        for number in range(1, 32):
            if (one[number], masks[number]) != (other[number], masks_also[number]):
                self.kinds[REGISTERS][number, writers.get(number)] += 1
        for address in {address for address, _ in (changed ^ also) | (bytes_masks ^ bytes_masks_also)}:
            self.kinds[BYTES][address, writers.get(("byte", address))] += 1
        self.kinds[OUTPUT][None] += first[2] != state[2]
        self.kinds[INPUTS][None] += read != read_also
        self.kinds[VISITS][None] += first[4] != state[4]

    def lines(self, program, places):
        """What differs, in words."""
        lines = self.byte_lines(program, places) + self.register_lines(program, places)
        told = {
            OUTPUT: "what was written so far: decide first, and write once at the end",
            INPUTS: "how much of the inputs was read: read all of it before a secret decides",
            VISITS: "how often points were passed that list masks visit by visit: give them `rest` with one mask",
        }
        return lines + [text for kind, text in told.items() if self.kinds[kind][None]]

    def byte_lines(self, program, places):
        """The bytes that differ, by the instruction that wrote them most often."""
        writers, by_writer, often = {}, {}, Counter()
        for (address, writer), count in self.kinds[BYTES].most_common():
            often[address] += count
            writers[address] = writers.get(address) or writer
        for address, writer in writers.items():
            by_writer.setdefault(writer, []).append(address)
        lines = []
        for writer in sorted(by_writer, key=lambda one: -sum(often[address] for address in by_writer[one]))[:MOST_TOLD]:
            first, count = min(by_writer[writer]), len(by_writer[writer])
            named = program.object_at(first)
            name = f" of {named.name}" if named else " on the stack or of the heap"
            lines.append(f"{count:,} byte{'s' * (count > 1)}{name}{writer_words(writer, program, places)}")
        return lines

    def register_lines(self, program, places):
        """The registers that differ, the most often first."""
        often, writers = Counter(), {}
        for (number, writer), count in self.kinds[REGISTERS].most_common():
            often[number] += count
            writers[number] = writers.get(number) or writer
        return [f"register {NAMES[number]}{writer_words(writers[number], program, places)}"
                for number, _ in often.most_common(MOST_TOLD)]


def writer_words(address, program, places):
    """Where something was written."""
    if address is None:
        return ""
    source = places.line_of(places.at(address)).strip()
    text = f", as {places.at(address).text()} left it: {instruction_text(program.instruction(address), address)}"
    return f"{text}: {source}" if source else text


class Parting:
    """The decision at which most states part, how many were seen there, and what differs between them."""

    def __init__(self, task):
        states = States(task)
        self.point, self.count = states.widest() or (None, 0)
        self.differences = Differences(states, self.point) if self.point else None
