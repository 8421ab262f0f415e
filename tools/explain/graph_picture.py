"""The picture of a graph of decisions as SVG: a box for each state, in layers from the first one down, and one for each
way in which paths end."""
import html

from decision_tree import Leaf
from document import Drawing
from flow_picture import layers_of

WIDE, NARROW, LEAST, MOST, HEIGHT, GAP, BETWEEN, CHARACTER = 900, 330, 40, 120, 30, 10, 34, 8
MOST_BOXES = 40


class GraphPicture:
    """The boxes by their names, with the layer of each, and the ways between them."""

    def __init__(self, graph, patterns):
        self.ways, self.kinds = {}, {}
        for state in graph.states():
            name = f"state {state.number}"
            self.kinds[name] = "cut"
            for _, node in state.ways:
                target = self.leaf_name(node, patterns) if isinstance(node, Leaf) else f"state {node.number}"
                self.kinds.setdefault(target, "sink" if isinstance(node, Leaf) else "cut")
                self.ways[name, target] = self.ways.get((name, target), 0) + 1
        self.rows = {}
        if self.ways and len(self.kinds) <= MOST_BOXES:
            for name, layer in layers_of(self.ways).items():
                self.rows.setdefault(layer, []).append(name)

    @staticmethod
    def leaf_name(leaf, patterns):
        """The name of an end."""
        return "stops" if leaf.ending[0] == "stopped" else leaf.text(patterns)

    def drawing(self):
        """The picture in two widths; one in which the boxes are too narrow is left out. None where both are."""
        wide, narrow = self.svg(WIDE), self.svg(NARROW)
        return Drawing(wide, narrow, []) if wide else None

    def places(self, width):
        """The left side and the top of each box, and the width of all; nothing where there is no room."""
        most = max(map(len, self.rows.values()), default=0)
        box = min(MOST, (width - GAP * (most + 1)) / most) if most else 0
        if box < max(LEAST, CHARACTER * max(map(len, self.kinds), default=0)):
            return {}, box
        places = {}
        for layer, row in self.rows.items():
            left = (width - len(row) * box - (len(row) - 1) * GAP) / 2
            for index, name in enumerate(row):
                places[name] = left + index * (box + GAP), GAP + layer * (HEIGHT + BETWEEN)
        return places, box

    def svg(self, width):
        """The picture in a width, or nothing."""
        places, box = self.places(width)
        if not places:
            return ""
        height = max(top for _, top in places.values()) + HEIGHT + GAP
        parts = [f'<svg class="flow graph" viewBox="0 0 {width} {height}" width="{width}" role="img" '
                 'aria-label="The states at which a bit is chosen, and the ways between them">']
        for source, target in self.ways:
            (left, top), (other, below) = places[source], places[target]
            begin, end = f"{left + box / 2:.1f} {top + HEIGHT}", f"{other + box / 2:.1f} {below}"
            parts.append(f'<path class="way" d="M {begin} L {end}"/>')
        for name, (left, top) in places.items():
            parts.append(f'<g class="box {self.kinds[name]}">')
            parts.append(f'<rect x="{left:.1f}" y="{top}" width="{box:.1f}" height="{HEIGHT}"/>')
            middle = f'x="{left + box / 2:.1f}" y="{top + 20}" text-anchor="middle"'
            parts.append(f"<text {middle}>{html.escape(name)}</text></g>")
        return "".join(parts + ["</svg>"])
