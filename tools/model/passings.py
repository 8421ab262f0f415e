"""What a measured run adds to the graph: the passings of its points and the links between them, collapsed by point.

A label is (mask, point). An end of a link is SOURCE, SINK, (POINT, point or index) or (RELAY, region)."""
from cuts import point_order

SOURCE, SINK, POINT, RELAY = (0, 0), (3, 0), 1, 2
CLEAN = 0, None
SECRET, IMPLICIT, OUT = "secret", "implicit", "out"
MOST_POINTS, MOST_LINKS, MOST_CAPACITY = 65_536, 1_048_576, (1 << 48) - 1


class Graph:
    """A graph: its points ascending, their capacities, its relays ascending, and its links ascending."""

    def __init__(self, points, capacities, relays, links):
        self.points, self.capacities, self.relays, self.links = points, capacities, relays, links

    def exceeds_limits(self):
        """Whether there is too much of something."""
        is_wide = any(capacity > MOST_CAPACITY for capacity in self.capacities)
        return len(self.points) > MOST_POINTS or len(self.links) > MOST_LINKS or is_wide


class Collapsed:
    """What has passed by points: for each point its masks as runs (count, mask), and the set of all links."""

    def __init__(self):
        self.runs, self.links = {}, set()

    def capacity(self, point):
        """How many secret bits have passed a point."""
        return sum(count * mask.bit_count() for count, mask in self.runs[point])

    def graph(self):
        """The collapsed graph."""
        points = sorted((point for point in self.runs if self.capacity(point)), key=point_order)
        places = {point: (POINT, place) for place, point in enumerate(points)}
        links = [tuple(places[end[1]] if end[0] == POINT else end for end in link) for link in self.links]
        relays = {end[1] for link in links for end in link if end[0] == RELAY}
        return Graph(points, [self.capacity(point) for point in points], sorted(relays), sorted(links))


class Passings(Collapsed):
    """The passings of one run so far."""

    def add(self, point, mask, sources=(), kind=None):
        """Adds a passing with a mask, linked from labels: of a byte of the secret, of a value that the run betrays by
        what it does, of an output of a region, or of none of these. The label of what has passed."""
        runs = self.runs.setdefault(point, [])
        if runs and runs[-1][1] == mask:
            runs[-1][0] += 1
        else:
            runs.append([1, mask])
        if not mask:
            return CLEAN
        end, region = (POINT, point), (RELAY, point[0]) if point[0] else SINK
        self.links.update(((POINT, source), end) for secret, source in sources if secret)
        if kind == SECRET:
            self.links.add((SOURCE, end))
        elif kind == IMPLICIT:
            self.links.add((end, region))
        elif kind == OUT:
            self.links.add((region, end))
        return mask, point
