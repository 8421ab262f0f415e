"""Declarations of regions that several runs need together: each is learnt by itself, and they are joined."""
import os

from cuts import read_regions
from guest import Region, shown
from instruction_text import NAMES as REGISTERS
from learns import NotingGuest, NotLearnt, ranges_of, regions_text, run_to_exit
from refusals import MOST_BYTES, MOST_RANGES
from region_finding import NoRegion
from run_facts import read
from tool import text_file


class Learner:
    """Learns what the runs of a program need of regions: of the program's `learn`, and where that has too many ranges
    for a declaration, of the model's run."""

    def __init__(self, asked, program, names, limit):
        self.asked, self.program, self.limit = asked, program, limit
        self.program_name, self.public_name = names

    def learnt(self, regions, secret):
        """The regions as the run on a secret needs them, perhaps with more ranges than a region may have."""
        words = [self.program_name, self.public_name, secret]
        bare = [Region(one.number, one.enter, one.leave) for one in regions]
        with text_file(regions_text(bare), ".json") as name:
            status, text = self.asked.answer(["learn", *words, name, "--turns", str(self.limit)])
        if status == 0:
            return read_regions(text.encode())
        if text.split()[4:5] == ["ranges"]:
            return self.learnt_by_model(regions, secret)
        raise NoRegion(f"{os.path.basename(secret)}: {text.strip()}")

    def learnt_by_model(self, regions, secret):
        """The same of the model's run, with as many ranges as there are."""
        guest, learnt = NotingGuest(self.program.image, read(self.public_name), read(secret), regions), []
        try:
            run_to_exit(guest, self.limit)
        except NotLearnt as fault:
            raise NoRegion(f"{os.path.basename(secret)}: {fault}") from None
        for region in regions:
            number, parts = region.number, (guest.registers_of, guest.changed_of, guest.bytes_of)
            written, changed, stored = (part[number] for part in parts)
            learnt.append(Region(number, region.enter, region.leave, written & changed, written - changed,
                                 ranges_of(stored)))
        return learnt


def learn_each(learner, declarations, secrets, passed_over):
    """Adds to declarations what the runs on secrets need; each secret with a region, and in words what is new. Those of
    the secrets that may be passed over are, where their runs do not exit."""
    for secret in secrets if declarations else []:
        try:
            learnt = learner.learnt([one.region for one in declarations], secret)
        except NoRegion:
            if secret in passed_over:
                continue
            raise
        for declaration, region in zip(declarations, learnt):
            yield secret, region, declaration.add(region)


class Declaration:
    """What the runs so far need of a region together. A register that one writes for the code behind it is an output,
    also where another gives it back."""

    def __init__(self, region):
        self.region, self.outs, self.keep, self.bytes, self.filled = region, set(), set(), set(), 0

    def add(self, learnt):
        """Adds what another run needs; what was not declared before, in words."""
        outs, keep = set(learnt.outs), set(learnt.keep)
        stored = {address for _, begin, length in learnt.ranges for address in range(begin, begin + length)}
        told = []
        for names, more in (("out", outs - self.outs - self.keep), ("kept", keep - outs - self.outs - self.keep)):
            told += [f"{registers_text(more)} {names}"] if more else []
        turned = outs & self.keep
        told += [f"{registers_text(turned)} out and no longer kept"] if turned else []
        told += [f"bytes {spans_text(stored - self.bytes)}"] if stored - self.bytes else []
        self.outs |= outs
        self.keep = (self.keep | keep) - self.outs
        self.bytes |= stored
        return ", ".join(told)

    def add_code(self, kept, others, is_call):
        """Declares what the code may write: registers that it gives back, and others. Behind a call the others are
        outputs, whatever the runs have left in them."""
        self.outs |= others if is_call else others - self.keep
        self.keep = (self.keep | kept) - self.outs

    def is_empty(self):
        """Whether no run writes anything in the region."""
        return not (self.outs or self.keep or self.bytes)

    def whole(self):
        """The declared region. Where there are too many ranges the nearest are joined."""
        ranges = joined_ranges(ranges_of(self.bytes))
        length = sum(length for _, _, length in ranges)
        self.filled = length - len(self.bytes)
        if length > MOST_BYTES:
            raise NoRegion(f"region {self.region.number} has {length:,} bytes, more than {MOST_BYTES:,}")
        return Region(self.region.number, self.region.enter, self.region.leave, self.outs, self.keep, ranges)


def joined_ranges(ranges):
    """Ranges, the nearest of which are joined until there are no more than a region may have."""
    gaps = [later[1] - sum(earlier[1:]) for earlier, later in zip(ranges, ranges[1:])]
    kept_apart = sorted(range(len(gaps)), key=lambda place: (-gaps[place], place))[: MOST_RANGES - 1]
    joined = list(ranges[:1])
    for place, span in enumerate(ranges[1:]):
        if place in kept_apart:
            joined.append(span)
        else:
            joined[-1] = None, joined[-1][1], sum(span[1:]) - joined[-1][1]
    return joined


def registers_text(numbers):
    """Registers by their names."""
    return " ".join(REGISTERS[number] for number in sorted(numbers))


def spans_text(addresses):
    """Bytes by their addresses."""
    spans = [(begin, begin + length - 1) for _, begin, length in ranges_of(addresses)]
    few = [shown(begin) if begin == last else f"{shown(begin)} to {shown(last)}" for begin, last in spans[:4]]
    return " and ".join(few) + (f" and {len(spans) - 4} stretches more" if len(spans) > 4 else "")


def pretty_text(regions):
    """A region file as people read it."""
    return '{"regions": [\n' + ",\n".join(map(pretty_region, regions)) + "\n]}\n"


def pretty_region(region):
    """A region as it stands in such a file."""
    outs, keep = (", ".join(f'"{REGISTERS[one]}"' for one in numbers) for numbers in (region.outs, region.keep))
    spans = ", ".join(f'{{"offset": {begin}, "length": {length}}}' for _, begin, length in region.ranges)
    return (
        f'{{"id": {region.number}, "enter": "0x{region.enter:x}", "leave": "0x{region.leave:x}",\n'
        f'  "outs": [{outs}],\n  "keep": [{keep}],\n  "ranges": [{spans}]}}'
    )
