"""The least declaration of a run: what it writes inside its regions, and the text of regions."""
import json

from guest import Guest, GuestExit, GuestFault, Region, RegionBreak, shown
from refusals import MOST_BYTES, MOST_RANGES
from verdicts import walk

MOST_TEXT = 65_536


class NotLearnt(Exception):
    """A run has no declaration; the text says why."""


class NotingGuest(Guest):
    """A guest with the addresses of regions alone. It notes by region which registers and bytes the instructions inside
    write, also with the value that is there, and which registers are others at a leave than at the entry before it."""

    def __init__(self, image, public, secret, regions):
        super().__init__(image, public, secret, [Region(one.number, one.enter, one.leave) for one in regions])
        self.registers_of, self.changed_of, self.bytes_of = ({one.number: set() for one in regions} for _ in range(3))

    def settle_kept(self, region):
        """Notes the registers that have changed since the entry."""
        pairs = enumerate(zip(self.at_entry, self.registers))
        self.changed_of[region.number].update(number for number, (before, after) in pairs if before != after)

    def declare_register(self, number):
        """Notes a register."""
        if self.entered:
            self.registers_of[self.entered.number].add(number)

    def declare_bytes(self, address, width):
        """Notes bytes."""
        if self.entered:
            self.bytes_of[self.entered.number].update(range(address, address + width))

    def declare_call(self):
        """A call inside a region cannot be declared."""
        if self.entered:
            raise RegionBreak(f"region {self.entered.number} call at {shown(self.pc)}")


def run_to_exit(guest, limit):
    """Lets a guest run until it exits."""
    for _ in range(limit):
        try:
            walk(guest.turn(), lambda visit: visit[3])
        except GuestExit:
            return
        except (GuestFault, RegionBreak) as stop:
            raise NotLearnt(str(stop)) from None
    raise NotLearnt(f"turns {limit}")


def ranges_of(addresses):
    """Addresses as ranges without a base, as long as can be, ascending."""
    begins = sorted(address for address in addresses if address - 1 not in addresses)
    ends = sorted(address + 1 for address in addresses if address + 1 not in addresses)
    return [(None, begin, end - begin) for begin, end in zip(begins, ends)]


def learn(image, public, secret, regions, limit):
    """The regions with the least declaration of the run on a secret, or `NotLearnt`."""
    guest, learnt = NotingGuest(image, public, secret, regions), []
    run_to_exit(guest, limit)
    for region in regions:
        written, changed = guest.registers_of[region.number], guest.changed_of[region.number]
        ranges = ranges_of(guest.bytes_of[region.number])
        learnt.append(Region(region.number, region.enter, region.leave, written & changed, written - changed, ranges))
        if len(ranges) > MOST_RANGES:
            raise NotLearnt(f"region {region.number} ranges {len(ranges)}")
        if len(guest.bytes_of[region.number]) > MOST_BYTES:
            raise NotLearnt(f"region {region.number} bytes {len(guest.bytes_of[region.number])}")
    if len(regions_text(learnt)) > MOST_TEXT:
        raise NotLearnt(f"text-size {len(regions_text(learnt))}")
    return learnt


def range_item(base, offset, length):
    """A range as it stands in a region file."""
    return {"length": length, "offset": offset} | ({} if base is None else {"base": f"x{base}"})


def region_item(region):
    """A region as it stands in a region file."""
    registers = {key: [f"x{number}" for number in getattr(region, key)] for key in ("outs", "keep")}
    bounds = {"enter": shown(region.enter), "leave": shown(region.leave)}
    return {"id": region.number} | bounds | registers | {"ranges": [range_item(*span) for span in region.ranges]}


def regions_text(regions):
    """The one text of regions."""
    whole = {"regions": [region_item(region) for region in regions]}
    return json.dumps(whole, sort_keys=True, separators=(",", ":")) + "\n"
