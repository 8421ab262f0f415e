"""The maximum flow of a graph, its least minimum side, and both once more by networkx where it is there."""
import collections

from passings import POINT, RELAY, SINK

try:
    import networkx
except ImportError:
    networkx = None

START, END = 0, 1


class Network:
    """A graph as halves and edges. Edge 2k is a point's inner edge or a link; edge 2k + 1 goes back, and what is open
    in it is what flows."""

    def __init__(self, graph):
        self.graph = graph
        first_relay = 2 + 2 * len(graph.points)
        self.relays = {region: first_relay + index for index, region in enumerate(graph.relays)}
        self.heads, self.open = [], []
        self.edges = [[] for _ in range(first_relay + len(graph.relays))]
        self.unbound = sum(graph.capacities) + 1
        for index, capacity in enumerate(graph.capacities):
            self.join(2 + 2 * index, 3 + 2 * index, capacity)
        for source, target in graph.links:
            self.join(self.half(source, 1), self.half(target, 0), self.unbound)

    def half(self, end, second):
        """The node of an end: the first or the second half of a point."""
        if end[0] == POINT:
            return 2 + 2 * end[1] + second
        if end[0] == RELAY:
            return self.relays[end[1]]
        return END if end == SINK else START

    def join(self, tail, head, capacity):
        """Adds an edge."""
        self.edges[tail].append(len(self.heads))
        self.edges[head].append(len(self.heads) + 1)
        self.heads += [head, tail]
        self.open += [capacity, 0]

    def levels(self):
        """The distance of each node from the source over edges with room left; None where it is not reached."""
        levels, queue = [None] * len(self.edges), collections.deque([START])
        levels[START] = 0
        while queue:
            node = queue.popleft()
            for edge in self.edges[node]:
                head = self.heads[edge]
                if self.open[edge] and levels[head] is None:
                    levels[head] = levels[node] + 1
                    queue.append(head)
        return levels

    def next_edge(self, node, levels, places):
        """The next edge of a node with room left to a node one level up, or None."""
        edges = self.edges[node]
        while places[node] < len(edges):
            edge = edges[places[node]]
            if self.open[edge] and levels[self.heads[edge]] == levels[node] + 1:
                return edge
            places[node] += 1
        return None

    def add_walks(self, levels):
        """Adds flow along walks that go up one level with each edge, until there is none."""
        places, walk, node = [0] * len(self.edges), [], START
        while True:
            edge = None if node == END else self.next_edge(node, levels, places)
            if edge is not None:
                walk.append(edge)
                node = self.heads[edge]
            elif node == END:
                self.add_flow(walk)
                walk, node = [], START
            elif not walk:
                return
            else:
                node = self.heads[walk.pop() ^ 1]
                places[node] += 1

    def add_flow(self, walk):
        """Adds as much flow along a walk as there is room for."""
        room = min(self.open[edge] for edge in walk)
        for edge in walk:
            self.open[edge] -= room
            self.open[edge ^ 1] += room

    def solve(self):
        """Adds flow while the source reaches the sink; what it reaches at last is the least minimum side."""
        levels = self.levels()
        while levels[END] is not None:
            self.add_walks(levels)
            levels = self.levels()
        return Solved(self.graph, self.open[1::2], [level is not None for level in levels])


class Solved:
    """A graph with a flow and a side: the flow of each point and of each link, whether each half is in the side (for a
    point a pair), and which relays are."""

    def __init__(self, graph, flows, members):
        count = len(graph.points)
        self.graph = graph
        self.point_flows, self.link_flows = flows[:count], flows[count:]
        self.halves = [(members[2 + 2 * index], members[3 + 2 * index]) for index in range(count)]
        self.relays = [region for region, is_in in zip(graph.relays, members[2 + 2 * count :]) if is_in]
        self.split = [index for index, halves in enumerate(self.halves) if halves == (True, False)]
        self.value = sum(graph.capacities[index] for index in self.split)


def solve(graph):
    """A maximum flow of a graph with its least minimum side."""
    return Network(graph).solve()


def second_opinion(graph):
    """The value of the maximum flow, and the halves and relays of the least minimum side, as networkx has them."""
    digraph = networkx.DiGraph()
    digraph.add_nodes_from(["source", "sink"])
    for index, capacity in enumerate(graph.capacities):
        digraph.add_edge((index, 0), (index, 1), capacity=capacity)

    def named(end, second):
        """The node of an end."""
        if end[0] == POINT:
            return end[1], second
        return ("relay", end[1]) if end[0] == RELAY else "sink" if end == SINK else "source"

    digraph.add_edges_from((named(source, 1), named(target, 0)) for source, target in graph.links if source != target)
    residual = networkx.algorithms.flow.boykov_kolmogorov(digraph, "source", "sink")
    left = networkx.DiGraph(
        (tail, head) for tail, head, edge in residual.edges(data=True) if edge["flow"] < edge["capacity"]
    )
    left.add_node("source")
    reached = {"source"} | networkx.descendants(left, "source")
    halves = [((index, 0) in reached, (index, 1) in reached) for index in range(len(graph.points))]
    return residual.graph["flow_value"], halves, [region for region in graph.relays if ("relay", region) in reached]
