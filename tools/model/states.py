"""States of the walks of `bound` between two turns, and what is below a place of a walk.

A state is the guest and the masks, what was written, the entered region with what it keeps from its entry, and of each
point of the cut the visits as far as they matter."""
import collections
import copy

from cuts import length_of


def copied(thing):
    """A copy with lists and maps of its own."""
    other = copy.copy(thing)
    for name, value in vars(thing).items():
        if isinstance(value, (list, dict, bytearray)):
            setattr(other, name, copy.copy(value))
    return other


def guest_part(walk):
    """The guest: its registers, and the bytes that differ from the start."""
    guest, first = walk.guest, walk.task.image.memory
    changed = frozenset(one for one in guest.memory.items() if first.get(one[0], 0) != one[1])
    return tuple(guest.registers), changed, guest.pc, guest.current_break, tuple(guest.consumed.values())


def masks_part(walk):
    """The masks of registers and bytes."""
    return tuple(walk.masks.registers), frozenset(one for one in walk.masks.bytes.items() if one[1])


def shown_part(walk):
    """What was written, with the masks of the free bits."""
    return bytes(walk.guest.output), tuple(walk.free)


def entry_part(walk):
    """The entered region, with what it keeps from its entry."""
    guest = walk.guest
    if guest.entered is None:
        return None
    return guest.entered.number, tuple(guest.starts), tuple(guest.at_entry), tuple(walk.masks.at_entry)


def repeating(runs, rest):
    """The number of visits behind which the masks of a point repeat, and after how many they do."""
    length, period, masks = length_of(runs), length_of(rest), {mask for _, mask in rest}
    if len(masks) > 1:
        return length, period
    while runs and runs[-1][1] in masks:
        length, runs = length - runs[-1][0], runs[:-1]
    return length, 1


def visits_part(walk):
    """The visits of the points of the cut, as far as they matter: the fewest from which on the masks are the same."""
    least = {}
    for point, visits in walk.cut_masks.visits.items():
        length, period = walk.repeating[point]
        least[point] = visits if visits < length else length + (visits - length) % period
    return frozenset(one for one in least.items() if one[1])


PARTS = [guest_part, masks_part, shown_part, entry_part, visits_part]
Below = collections.namedtuple("Below", "paths stopped turns bits")
Known = collections.namedtuple("Known", "below made crossed")


class Place:
    """A place of a walk at which a bit may be chosen, with its state, and what is known below it: how many paths there
    are, how many of them stop, and the most turns and bits that one has made. One whose paths end by the limit of turns
    is not known by its state."""

    def __init__(self, walk):
        self.walk, self.state = walk.copied([]), tuple(part(walk) for part in PARTS)
        self.paths, self.stopped, self.made, self.crossed, self.is_known = 0, 0, 0, 0, True

    def add(self, walk, below):
        """Adds the paths that a walk has come to."""
        self.paths, self.stopped = self.paths + below.paths, self.stopped + below.stopped
        self.made = max(self.made, walk.made + below.turns)
        self.crossed = max(self.crossed, walk.crossed + below.bits)
        self.is_known = self.is_known and not is_late(walk)

    def below(self):
        """What is below its state."""
        return Below(self.paths, self.stopped, self.made - self.walk.made, self.crossed - self.walk.crossed)


def is_late(walk):
    """Whether a walk has ended by the limit of turns."""
    return walk.ending == ("stopped", f"turns {walk.task.turns}")


def fits(walk, below):
    """Whether as many turns and bits are left as are wanted below a state."""
    return walk.made + below.turns <= walk.task.turns and walk.crossed + below.bits <= walk.task.budget


def beside(left, first):
    """How much is left beside what was left where the state was known first."""
    return "as many" if left == first else "fewer" if left < first else "more"


def meetings_of(walk, known, is_met):
    """Of a walk that has come to a known state: of which kinds that is, and why it is not met where it is not."""
    below, task = known.below, walk.task
    turns, bits = task.turns - walk.made - below.turns, task.budget - walk.crossed - below.bits
    if not is_met:
        yield "not met"
        yield from ["not met with too few turns left"] * (turns < 0)
        yield from ["not met with too few bits left"] * (bits < 0)
        return
    yield "met"
    yield f"met with {beside(-walk.made, -known.made)} turns left"
    yield f"met with {beside(-walk.crossed, -known.crossed)} bits left"
    yield from ["met with just enough turns left"] * (turns == 0)
    yield from ["met with just enough bits left"] * (bits == 0)
    yield from ["met with stops below"] * bool(below.stopped)
    yield from ["met inside a region"] * (walk.guest.entered is not None)
    yield from ["met behind a region"] * (walk.regions > 0 and walk.guest.entered is None)
