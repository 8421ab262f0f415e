"""The measured run, its graph and flow, the cut of the run, and the texts of `graph` and `report`."""
import json

from certificates import certificate_text
from cuts import Cut
from flows import solve
from guest import GuestExit, GuestFault, RealGuest, RegionBreak, shown
from instructions import decode
from labels import Labels
from passings import Passings
from verdicts import walk


class Refused(Exception):
    """A run is not measured; the text says why."""


class MeasuredRun:
    """A real run with labels: its passings, the number of its turns and its status. It is refused where it stops."""

    refusal = Refused

    def __init__(self, guest, table, limit):
        self.guest, self.passings = guest, Passings()
        self.labels = self.labelled(table)
        self.turns, self.status = 0, None
        while self.status is None:
            if self.turns == limit:
                raise self.refusal(f"turns {limit}")
            self.make_turn()
            self.turns += 1

    def labelled(self, table):
        """The labels at the start."""
        return Labels(table, self.passings)

    def make_turn(self):
        """Makes one turn, and then follows it with labels."""
        self.make_labelled_turn()

    def make_labelled_turn(self):
        """Makes one turn, and then follows it with labels; its visits."""
        guest, kind, region, instruction = self.guest, self.guest.kind(), self.guest.entered, None
        if kind == "enter":
            self.look_at_bases(guest.by_enter[guest.pc])
        elif kind == "step" and guest.is_inside(guest.pc, 4):
            self.look_at_code()
            instruction = decode(guest.word(guest.pc, 4))
        visits = self.make_walk()
        if kind == "enter":
            self.labels.enter()
        elif kind == "leave":
            self.labels.leave(region, guest.starts, visits)
        else:
            self.labels.step(instruction, visits, guest.registers[10])
        return visits

    def make_walk(self):
        """Lets the guest make its turn; its visits."""
        visits = []
        try:
            self.walk(visits)
        except (GuestFault, RegionBreak) as stop:
            raise Refused(str(stop)) from None
        return visits

    def walk(self, visits):
        """Lets the guest make its turn, and adds its visits."""
        try:
            walk(self.guest.turn(), lambda visit: visits.append(visit) or visit[3])
        except GuestExit as exited:
            self.status = exited.status

    def look_at_bases(self, region):
        """A range must not begin where a secret says."""
        for base, _, _ in region.ranges:
            if base and self.labels.registers[base][0]:
                raise self.refusal(f"region {region.number} base x{base} secret")

    def look_at_code(self):
        """An instruction must not be made of secrets."""
        pc = self.guest.pc
        if any(self.labels.byte(address)[0] for address in range(pc, pc + 4)):
            raise self.refusal(f"secret-code {shown(pc)}")


# The slots of instructions that are no calls.
INSTRUCTION_SLOTS = "u1", "u2", "ad", "rs", "de"


def is_inner(point, skip):
    """Whether a point is at a slot of an instruction inside a skipped region. A call breaks the region."""
    return point[0] in skip and point[2] in INSTRUCTION_SLOTS


class Measured:
    """A run that is measured, with its maximum flow and its least minimum side; or `Refused`."""

    def __init__(self, image, public, secret, regions, table, limit):
        self.secret_length = len(secret)
        self.run = MeasuredRun(RealGuest(image, public, secret, regions), table, limit)
        self.graph = self.run.passings.graph()
        if self.graph.exceeds_limits():
            raise Refused("graph-limit")
        self.solved = solve(self.graph)
        self.bits, self.skip = self.solved.value, self.solved.relays
        self.output = self.run.guest.output

    def cut(self):
        """The cut of the run: the points that the side splits, but those of instructions inside a skipped region."""
        points = {}
        for point in (self.graph.points[index] for index in self.solved.split):
            if not is_inner(point, self.skip):
                runs, union = self.run.passings.runs[point], 0
                for _, mask in runs:
                    union |= mask
                points[point] = [tuple(run) for run in runs], [(1, union)]
        return Cut(self.secret_length, self.bits, self.skip, points)

    def certificate(self):
        """The text of `graph`."""
        return certificate_text(self.solved)

    def facts(self):
        """What a report says, but its lists."""
        facts = {"bits": self.bits, "secret": self.secret_length, "turns": self.run.turns}
        facts |= {"points": len(self.graph.points), "links": len(self.graph.links)}
        return facts | {"output": len(self.output), "status": self.run.status}

    def report(self):
        """The text of `report`."""
        lines = [" ".join(f"{name} {number}" for name, number in self.facts().items())]
        lines += [f"skip {region}" for region in self.skip]
        for region, address, slot in self.cut().points:
            bits = self.run.passings.capacity((region, address, slot))
            lines.append(f"cut {region} {shown(address)} {slot} bits {bits}")
        return "\n".join(lines) + "\n"

    def json_report(self):
        """The text of `report` as JSON."""
        points = [
            {"address": shown(address), "bits": self.run.passings.capacity((region, address, slot)),
             "region": region, "slot": slot}
            for region, address, slot in self.cut().points
        ]
        whole = self.facts() | {"cut": points, "skip": self.skip}
        return json.dumps(whole, sort_keys=True, separators=(",", ":")) + "\n"
