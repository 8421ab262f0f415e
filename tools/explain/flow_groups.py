"""The flow of a certificate between larger things than points: lines, functions or the sides of the cut.

A node is SOURCE, SINK, (CUT, group), (RELAY, region) or (SECRET_SIDE or SEEN_SIDE, group)."""
from guest import shown
from passings import POINT, RELAY
from passings import SOURCE as FIRST

SOURCE, SINK = ("source", ""), ("sink", "")
CUT, RELAY_NODE, SECRET_SIDE, SEEN_SIDE = "cut", "relay", "secret side", "seen side"
LEVELS = ["point", "line", "function", "side"]


class Grouping:
    """Nodes and the flow between them, at one level of detail: lines with each point of the cut by itself, lines, whole
    functions, or the two sides of the cut."""

    def __init__(self, facts, places, level):
        self.facts, self.places, self.level = facts, places, level
        self.flows, self.cut_bits = {}, {}
        bits = {cut.point: cut.bits for cut in facts.cut_points}
        for place, point in enumerate(facts.graph.points):
            if self.is_cut(place):
                node = self.cut_node(point)
                self.cut_bits[node] = self.cut_bits.get(node, 0) + bits[point]
        for source, target, flow in facts.flows():
            self.join(self.node(source, 1), self.node(target, 0), flow)
        while (circle := self.circle()):
            self.leave_out(circle)

    def circle(self):
        """The flows of a circle, as pairs of nodes, or None. Lines and functions may hand bits to and fro."""
        followers, state, walk = {}, {}, []
        for source, target in self.flows:
            followers.setdefault(source, []).append(target)
        for root in followers:
            walk.append((root, iter(followers[root] if root not in state else ())))
            state.setdefault(root, True)
            while walk:
                node, rest = walk[-1]
                following = next(rest, None)
                if following is None:
                    state[node] = False
                    walk.pop()
                elif state.get(following):
                    nodes = [node for node, _ in walk]
                    nodes = nodes[nodes.index(following) :]
                    return list(zip(nodes, nodes[1:] + nodes[:1]))
                elif following not in state:
                    state[following] = True
                    walk.append((following, iter(followers.get(following, ()))))
        return None

    def leave_out(self, circle):
        """Takes from the flows of a circle what goes round; what arrives stays the same."""
        round_flow = min(self.flows[pair] for pair in circle)
        for pair in circle:
            self.flows[pair] -= round_flow
            if not self.flows[pair]:
                del self.flows[pair]

    def is_cut(self, place):
        """Whether the cut goes through a point."""
        return self.facts.halves(place) == (True, False)

    def join(self, source, target, flow):
        """Adds a flow between two nodes."""
        if source != target and flow:
            self.flows[source, target] = self.flows.get((source, target), 0) + flow

    def group(self, point):
        """The name of what a point belongs to."""
        place = self.places.at(point[1])
        if self.level == "side":
            return ""
        if self.level == "function" and place.function:
            return place.function
        return place.text()

    def cut_node(self, point):
        """The node of a point of the cut."""
        if self.level == "point":
            return CUT, f"{self.group(point)}|{point[2]} at {shown(point[1])}"
        return CUT, self.group(point)

    def node(self, end, second):
        """The node of an end of a link, a point with its first or its second half."""
        if end[0] == POINT:
            point = self.facts.graph.points[end[1]]
            side = SECRET_SIDE if self.facts.halves(end[1])[second] else SEEN_SIDE
            return self.cut_node(point) if self.is_cut(end[1]) else (side, self.group(point))
        if end[0] == RELAY:
            return RELAY_NODE, f"region {end[1]}"
        return SOURCE if end == FIRST else SINK

    def nodes(self):
        """All nodes, in the order of their flows."""
        return list(dict.fromkeys(node for pair in self.flows for node in pair))

    def through(self, node):
        """The flow through a node."""
        into = sum(flow for (_, target), flow in self.flows.items() if target == node)
        return into or sum(flow for (source, _), flow in self.flows.items() if source == node)

