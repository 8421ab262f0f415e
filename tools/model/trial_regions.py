"""Random regions of a program, whose declarations are learnt from runs and sometimes spoilt."""
import json

from cuts import NAMES
from guest import ALL, Guest, Region
from verdicts import RealRun

LEARNING_TURNS = 3000
SPELLINGS = {number: [name for name, named in NAMES.items() if named == number] for number in range(1, 32)}


class LearningGuest(Guest):
    """A guest that believes its regions and keeps what they write, change, and hold at their first entry."""

    def __init__(self, *arguments):
        super().__init__(*arguments)
        self.written, self.stored, self.changed, self.held = {}, {}, {}, {}

    def stop_outside(self, text):
        """Nothing: a region that is learnt has no ranges."""

    def enter(self):
        """Keeps the registers at the first entry."""
        super().enter()
        self.held.setdefault(self.entered.number, self.at_entry)

    def settle_kept(self, region):
        """Keeps which registers have changed since the entry."""
        changed = [number for number in range(1, 32) if self.registers[number] != self.at_entry[number]]
        self.changed.setdefault(region.number, set()).update(changed)

    def declare_register(self, number):
        """Keeps that the register is written."""
        if self.entered:
            self.written.setdefault(self.entered.number, set()).add(number)

    def declare_bytes(self, address, width):
        """Keeps that the bytes are written."""
        if self.entered:
            self.stored.setdefault(self.entered.number, set()).update(range(address, address + width))

    def declare_call(self):
        """A call is nothing that can be declared."""


def random_regions(dice, program, image, public, secrets):
    """Up to three regions, or none."""
    if dice.random() < 0.25:
        return []
    count = dice.choice([1, 1, 1, 2, 2, 3])
    path = RealRun(LearningGuest(image, public, secrets[0], []), LEARNING_TURNS).turns
    bare = {}
    for number in dice.sample([1, 2, 3, 4, 5, 300, 65535], count):
        enter, leave = random_bounds(dice, program, path)
        if enter != leave and enter not in bare:
            bare[enter] = Region(number, enter, leave)
    guests = []
    for secret in secrets[: dice.choice([1, len(secrets), len(secrets)])]:
        guests.append(LearningGuest(image, public, secret, bare.values()))
        RealRun(guests[-1], LEARNING_TURNS)
    regions = [declared(dice, program, region, guests) for region in bare.values()]
    return dice.sample(regions, len(regions))


def random_bounds(dice, program, path):
    """The enter and the leave address of a region: of some pieces, of a stretch of the run, or anywhere."""
    kind = dice.random() * program.spread
    if program.inner and dice.random() < 0.8:
        return program.inner
    if kind < 0.62 and program.blocks:
        boundaries = dice.choice(program.blocks)
        first = dice.randrange(len(boundaries) - 1)
        last = dice.randrange(first, len(boundaries)) if dice.random() < 0.5 else -1
        return boundaries[first], boundaries[last]
    if kind < 0.9 and len(path) > 4:
        first = dice.randrange(len(path) - 2)
        rest = enumerate(path[first + 1 :], first + 1)
        call = next((index for index, turn in rest if turn.visits and turn.visits[0][2] == "nr"), 0)
        last = call - 1 if call > first + 2 and dice.random() < 0.9 else first + 12
        return path[first].pc, path[dice.randint(first + 1, min(last, len(path) - 1))].pc
    anywhere = [program.code + 4 * dice.randrange(len(program.words)) for _ in range(2)]
    if dice.random() < 0.3:
        anywhere[0] = dice.choice([0, program.code - 0x100000 & ALL & ~3])
    return tuple(anywhere)


def merged(guests, kept, number):
    """What the guests have kept of a region, together."""
    return set().union(*(getattr(guest, kept).get(number, set()) for guest in guests))


def declared(dice, program, region, guests):
    """A region with what it was seen to write, sometimes spoilt."""
    written = merged(guests, "written", region.number)
    keep = written - merged(guests, "changed", region.number)
    if dice.random() < 0.15:
        keep = {number for number in sorted(keep) if dice.random() < 0.5}
    outs = written - keep
    if outs and dice.random() < 0.2:
        number = dice.choice(sorted(outs))
        outs.discard(number)
        if dice.random() < 0.5:
            keep.add(number)
    extra = dice.randrange(1, 32)
    if dice.random() < 0.2 and extra not in written:
        (keep if dice.random() < 0.6 else outs).add(extra)
    spans = random_spans(dice, program, merged(guests, "stored", region.number))
    held = guests[0].held.get(region.number)
    ranges = [with_base(dice, program, start, length, held) for start, length in spans]
    return Region(region.number, region.enter, region.leave, outs, keep, ranges)


def spans_of(addresses):
    """The addresses as stretches [start, length]."""
    spans = []
    for address in sorted(addresses):
        if spans and sum(spans[-1]) == address:
            spans[-1][1] += 1
        else:
            spans.append([address, 1])
    return spans


def random_spans(dice, program, stored):
    """The stretches that a region declares: those of what it stores, some split, spoilt, widened or added."""
    spans = []
    for start, length in spans_of(stored)[:30]:
        first = dice.randrange(1, length) if length > 1 and dice.random() < 0.15 else length
        spans += [[start, first]] + ([[start + first, length - first]] if first < length else [])
    if spans and dice.random() < 0.06:
        spoilt = spans.pop(dice.randrange(len(spans)))
        spans += [[spoilt[0], spoilt[1] - 1]] if spoilt[1] > 1 and dice.random() < 0.5 else []
    if spans and dice.random() < 0.3:
        widened = dice.choice(spans)
        before = dice.randrange(3)
        widened[0], widened[1] = widened[0] - before, widened[1] + before + dice.randrange(6)
    if dice.random() < 0.15 or program.inner and not spans:
        spans.append([program.data + dice.randrange(-4, 40), dice.randint(1, 6)])
    if dice.random() < program.outside:
        end = (program.code & ~0xFFFF) + (1 << 24)
        spans.append([dice.choice([0, ALL, program.data - 0x100000, end - 2]), dice.randint(1, 6)])
    return dice.sample(spans, len(spans)) if dice.random() < 0.2 else spans


def with_base(dice, program, start, length, held):
    """A stretch as a range, perhaps from the value that a register holds at the entry."""
    if held is None or dice.random() < 0.5:
        return None, start & ALL, length
    base = dice.choice([8, 8, 2, dice.randrange(1, 32), dice.choice(program.pool)])
    if program.inner and dice.random() < 0.8:
        base = 5
    return base, (start - held[base]) & ALL, length


def written_range(dice, span):
    """A range as an item of a region file."""
    base, offset, length = span
    item = {"length": length}
    if offset or dice.random() < 0.5:
        item["offset"] = offset - (1 << 32) if offset >> 31 and dice.random() < 0.5 else offset
    if base is not None or dice.random() < 0.1:
        item["base"] = base and dice.choice(SPELLINGS[base])
    return item


def written_region(dice, region):
    """A region as an item of a region file: keys in any order, those without items perhaps left out."""
    item = {"id": region.number}
    for key, address in (("enter", region.enter), ("leave", region.leave)):
        item[key] = dice.choice(["0x%x", "0x%08x", "0x%X"]) % address
    for key, registers in (("outs", region.outs), ("keep", region.keep)):
        if registers or dice.random() < 0.4:
            item[key] = [dice.choice(SPELLINGS[number]) for number in dice.sample(registers, len(registers))]
    if region.ranges or dice.random() < 0.3:
        item["ranges"] = [written_range(dice, span) for span in region.ranges]
    return {key: item[key] for key in dice.sample(list(item), len(item))}


def region_file(dice, regions):
    """A region file of the regions."""
    items = [written_region(dice, region) for region in regions]
    return json.dumps({"regions": items}, indent=dice.choice([None, 1])).encode()
