"""The certificate of a maximum flow: its text, its reading, and the verdict on it."""
import re

from cuts import SLOTS, point_order
from guest import shown
from passings import POINT, RELAY, SINK, SOURCE, Graph

LIMIT = 1 << 48
SIDES = {"s": (True, True), "m": (True, False), "o": (False, True), "t": (False, False)}
LETTERS = {halves: letter for letter, halves in SIDES.items()}
NUMBER, SLOT = r"(0|[1-9][0-9]*)", "|".join([*SLOTS, "x([1-9]|[12][0-9]|3[01])", "r([0-9]|[1-5][0-9]|6[0-3])"])
VALUE = re.compile(rf"value {NUMBER}")
POINT_LINE = re.compile(rf"point {NUMBER} 0x([0-9a-f]{{8}}) ({SLOT}) capacity {NUMBER} flow {NUMBER} side ([smot])")
RELAY_LINE = re.compile(rf"relay {NUMBER} side ([st])")
LINK_LINE = re.compile(rf"link (source|[pr]{NUMBER}) (sink|[pr]{NUMBER}) flow {NUMBER}")


class BadForm(Exception):
    """A text is no certificate; the number is that of the first line that fails."""


def end_name(end):
    """An end as certificates name it."""
    return {SOURCE: "source", SINK: "sink"}.get(end) or ("p" if end[0] == POINT else "r") + str(end[1])


def certificate_text(solved):
    """The certificate of a graph with a flow and a side."""
    graph, lines = solved.graph, ["flowcheck-graph 1", f"value {solved.value}"]
    for point, capacity, flow, halves in zip(graph.points, graph.capacities, solved.point_flows, solved.halves):
        name = f"{point[0]} {shown(point[1])} {point[2]}"
        lines.append(f"point {name} capacity {capacity} flow {flow} side {LETTERS[halves]}")
    for region in graph.relays:
        lines.append(f"relay {region} side {'s' if region in solved.relays else 't'}")
    for (source, target), flow in zip(graph.links, solved.link_flows):
        lines.append(f"link {end_name(source)} {end_name(target)} flow {flow}")
    return "\n".join(lines + ["end", ""])


def without_flows(text):
    """What of a certificate's text is determined: all but its flows."""
    return re.sub(r" flow \d+", "", text)


class Certificate:
    """A certificate: a graph with the value, the flows and the side that it claims."""

    def __init__(self, text):
        self.lines = text.split("\n")
        self.place, self.points, self.relays, self.links = 0, [], [], []
        self.read_line("flowcheck-graph 1")
        self.value = self.number(self.read_form(VALUE)[1])
        self.read_all(POINT_LINE, self.read_point, self.points, lambda point: point_order(point[0]))
        self.read_all(RELAY_LINE, self.read_relay, self.relays, lambda relay: relay[0])
        self.read_all(LINK_LINE, self.read_link, self.links, lambda link: link[0])
        self.read_line("end")
        self.require(self.lines[self.place :] == [""])
        named = [point for point, *_ in self.points], [capacity for _, capacity, *_ in self.points]
        self.graph = Graph(*named, [region for region, _ in self.relays], [link for link, _ in self.links])

    def require(self, is_right):
        """Fails in the line that is read."""
        if not is_right:
            raise BadForm(self.place + 1)

    def line(self):
        """The line that is read, or None where there is no whole one."""
        return self.lines[self.place] if self.place + 1 < len(self.lines) else None

    def read_line(self, expected):
        """Reads exactly this line."""
        self.require(self.line() == expected)
        self.place += 1

    def read_form(self, form):
        """Reads a line of this form."""
        match = form.fullmatch(self.line() or "")
        self.require(match)
        self.place += 1
        return match

    def number(self, text, limit=LIMIT):
        """A number below a limit, of the line that has just been read."""
        if int(text) >= limit:
            raise BadForm(self.place)
        return int(text)

    def read_all(self, form, read, items, order):
        """Reads lines of a form as long as there are any; each must exceed the one before."""
        while form.fullmatch(self.line() or ""):
            items.append(read(self.read_form(form)))
            if len(items) > 1 and order(items[-2]) >= order(items[-1]):
                raise BadForm(self.place)

    def read_point(self, match):
        """A point with its capacity, its flow and its halves."""
        region, address, slot, *_, capacity, flow, side = match.groups()
        point = self.number(region, 1 << 16), int(address, 16), slot
        if capacity == "0":
            raise BadForm(self.place)
        return point, self.number(capacity), self.number(flow), SIDES[side]

    def read_relay(self, match):
        """A relay and whether it is in the side."""
        return self.number(match[1], 1 << 16), match[2] == "s"

    def read_link(self, match):
        """A link and its flow."""
        source, target = self.end(match[1]), self.end(match[3])
        if source == SOURCE and target[0] != POINT:
            raise BadForm(self.place)
        return (source, target), self.number(match[5])

    def end(self, name):
        """The end with a name, which must be there."""
        if name in ("source", "sink"):
            return SOURCE if name == "source" else SINK
        number = int(name[1:])
        is_known = number < len(self.points) if name[0] == "p" else number in (region for region, _ in self.relays)
        if not is_known:
            raise BadForm(self.place)
        return (POINT if name[0] == "p" else RELAY), number

    def verdict(self):
        """The status and the line of `verify`."""
        reason = self.over() or self.unbalanced() or self.across() or self.values()
        return (1, f"rejected {reason}\n") if reason else (0, f"verified {self.value}\n")

    def over(self):
        """The first point whose flow exceeds its capacity."""
        wide = (index for index, (_, capacity, flow, _) in enumerate(self.points) if flow > capacity)
        return next((f"over p{index}" for index in wide), None)

    def unbalanced(self):
        """The first half or relay whose flow in is not its flow out."""
        into, out = {}, {}
        for (source, target), flow in self.links:
            out[source] = out.get(source, 0) + flow
            into[target] = into.get(target, 0) + flow
        for index, (_, _, flow, _) in enumerate(self.points):
            if into.get((POINT, index), 0) != flow:
                return f"unbalanced p{index}.in"
            if out.get((POINT, index), 0) != flow:
                return f"unbalanced p{index}.out"
        wrong = (region for region, _ in self.relays if into.get((RELAY, region), 0) != out.get((RELAY, region), 0))
        return next((f"unbalanced r{region}" for region in wrong), None)

    def across(self):
        """The first link that leaves the side."""
        relays = dict(self.relays)

        def is_in(end, second):
            """Whether an end is in the side, a point with its first or its second half."""
            return self.points[end[1]][3][second] if end[0] == POINT else end == SOURCE or relays.get(end[1], False)

        for (source, target), _ in self.links:
            if is_in(source, 1) and (target == SINK or not is_in(target, 0)):
                return f"across {end_name(source)} {end_name(target)}"
        return None

    def values(self):
        """The value, the flow and the cut, where they are not all equal."""
        flow = sum(flow for (source, _), flow in self.links if source == SOURCE)
        cut = sum(capacity for _, capacity, _, halves in self.points if halves == (True, False))
        return None if self.value == flow == cut else f"values value {self.value} flow {flow} cut {cut}"


def verify(file):
    """The status and the text of `verify` on the bytes of a file."""
    try:
        return Certificate(file.decode("latin-1")).verdict()
    except BadForm as fault:
        return 3, f"refused 3 certificate line {fault}\n"
