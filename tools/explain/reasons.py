"""Why the number of a run is what it is: what shows the bits of a read, by which way they came there, and where they
became more."""
from collections import deque

from instructions import WIDTHS
from passings import POINT, RELAY, SINK

CALLS = {"nr": "the number of a call", "a0": "the first argument of a call", "a1": "the address of a call",
         "a2": "the length of a call"}
RESULTS = {"add": "added", "sub": "subtracted", "and": "masked", "or": "joined", "xor": "compared bit by bit",
           "sll": "shifted left", "srl": "shifted right", "sra": "shifted right with its sign", "slt": "compared",
           "sltu": "compared", "mul": "multiplied", "mulh": "multiplied", "mulhsu": "multiplied", "mulhu": "multiplied",
           "div": "divided", "divu": "divided", "rem": "divided", "remu": "divided"}


def how_words(point, instruction, is_grown=False):
    """What the run did with the bits at a point."""
    slot = point[2]
    if slot == "rs":
        if instruction and instruction.form == "load":
            is_signed = is_grown and instruction.name in ("lb", "lh")
            return "sign-extended" if is_signed else f"loaded, {8 * WIDTHS[instruction.name]} bits at a time"
        return RESULTS.get(instruction.name if instruction else "", "computed")
    if slot == "ad":
        is_jump = instruction and instruction.form == "jump_register"
        return "used as the target of a jump" if is_jump else "used as an address"
    if slot in CALLS:
        return f"used as {CALLS[slot]}"
    named = {"in": "read", "de": "decided a branch", "ou": "written to the output", "st": "the exit status"}
    return named.get(slot) or ("put out by a region" if slot[0] in "xr" else "used")


class Reasons:
    """The reasons of a measured run. `noted` is the model's run, or None where it was too long."""

    def __init__(self, facts, noted, program):
        self.facts, self.noted, self.program = facts, noted, program
        self.points = facts.graph.points
        self.reads = [cut for cut in facts.cut_points if cut.slot == "in"]
        self.followers = {}
        for source, target, flow in facts.flows():
            self.followers.setdefault(source, []).append((target, flow))

    def how(self, point):
        """What the run did with the bits at a point."""
        is_grown = self.noted is not None and point in self.noted.passings.growth
        return how_words(point, self.program.instruction(point[1]), is_grown)

    def reached(self):
        """The ends of the way of the flow behind the reads of the cut, each with the one before it."""
        first = [(POINT, self.points.index(cut.point)) for cut in self.reads]
        before, queue = dict.fromkeys(first), deque(first)
        while queue:
            end = queue.popleft()
            for follower, _ in self.followers.get(end, ()):
                if follower not in before:
                    before[follower] = end
                    queue.append(follower)
        return before

    def shown(self):
        """The points at which bits of these reads are seen, or enter the outputs of a region, with the bits that flow
        there, the most first."""
        found = {}
        for end in self.reached():
            for follower, flow in self.followers.get(end, ()):
                if end[0] == POINT and (follower == SINK or follower[0] == RELAY):
                    found[self.points[end[1]]] = found.get(self.points[end[1]], 0) + flow
        return sorted(found.items(), key=lambda item: -item[1])

    def way(self, point):
        """The points on a shortest way of the flow from a read of the cut to a point."""
        before, end, way = self.reached(), (POINT, self.points.index(point)), []
        while end is not None:
            way += [self.points[end[1]]] if end[0] == POINT else []
            end = before[end]
        return way[::-1]

    def grown(self):
        """The points behind the reads at which bits became more: the bits before and behind, the most first."""
        if self.noted is None:
            return []
        links = {}
        for source, target in self.noted.passings.links:
            links.setdefault(source, []).append(target)
        ends, growth = {(POINT, cut.point) for cut in self.reads}, self.noted.passings.growth
        stack = list(ends)
        while stack:
            for target in links.get(stack.pop(), ()):
                if target not in ends:
                    ends.add(target)
                    stack.append(target)
        found = [(end[1], growth[end[1]]) for end in ends if end[0] == POINT and end[1] in growth]
        return sorted((item for item in found if item[0][2] == "rs"), key=lambda item: item[1][0] - item[1][1])

    def output_bits(self):
        """How many bits tell apart all outputs of this run's length, with their statuses."""
        return 8 * (self.facts.numbers["output"] + 1)

    def kinds(self):
        """What remedies are chosen by."""
        shown = [point for point, _ in self.shown()] + [cut.point for cut in self.facts.cut_points]
        kinds = {"address" for point in shown if point[2] == "ad"}
        decided = sum(cut.bits for cut in self.facts.cut_points if cut.slot == "de")
        decided += sum(bits for point, bits in self.shown() if point[2] == "de")
        kinds |= {"decision"} if decided > 1 else set()
        kinds |= {"length" for point in shown if point[2] == "a2"}
        kinds |= {"region"} if self.facts.cut.skip else set()
        grown = self.grown()
        signs = "sign-extended", RESULTS["sra"]
        kinds |= {"sign" for point, _ in grown if self.how(point) in signs}
        kinds |= {"grown" for point, _ in grown if self.how(point) in ("multiplied", "divided", "added", "subtracted")}
        return kinds | {"several" for cut in self.reads if cut.visits > 1}
