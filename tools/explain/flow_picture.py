"""The picture of a flow as SVG: boxes in layers from the secret at the top to what is seen at the bottom, joined by
bands whose widths are the bits that flow."""
import html

from flow_groups import CUT, LEVELS, RELAY_NODE, SECRET_SIDE, SINK, SOURCE, Grouping
from tool import counted

BOX, GAP, MARGIN, BETWEEN, LEAST_GAP = 50, 12, 6, 46, 3
MOST_NODES = 24
CHARACTER = 7


def layers_of(flows):
    """The layer of each node: the length of the longest walk to it. The flows have no circle."""
    layers, is_changed = {node: 0 for pair in flows for node in pair}, True
    while is_changed:
        is_changed = False
        for source, target in flows:
            if layers[target] <= layers[source]:
                layers[target], is_changed = layers[source] + 1, True
    return layers


class Item:
    """A node in a layer, or the place where a long band passes a layer."""

    def __init__(self, node, width, flow, is_box):
        self.node, self.width, self.flow, self.is_box = node, width, flow, is_box
        self.layer, self.left, self.into, self.out = 0, 0, [], []

    def bands(self, ends):
        """The bands that lead to it, or those that lead away from it."""
        return self.out if ends else self.into

    def middle(self):
        """The middle of its width."""
        return self.left + self.width / 2


class Picture:
    """The layout of a grouping within a width in pixels."""

    def __init__(self, grouping, facts, width):
        self.grouping, self.facts, self.width = grouping, facts, width
        self.scale = min(6, 0.4 * width / max(facts.numbers["bits"], 1))
        self.items, self.bands = {}, []
        layers = layers_of(grouping.flows)
        for node in layers:
            self.items[node] = self.box(node)
        self.rows = self.rows_of(layers)
        self.add_bands()
        self.arrange()

    def lines(self, node):
        """The lines of text in a box."""
        kind, name = node
        bits = bits_text(self.grouping.through(node))
        if node == SOURCE:
            return ["the secret", counted(self.facts.numbers["secret"], "byte"), bits]
        if node == SINK:
            return ["what is seen", "output and status", bits]
        if kind == CUT:
            place, _, slot = name.partition("|")
            return [f"CUT  {bits_text(self.grouping.cut_bits[node])}", place or "all of it", slot or "its points"]
        if kind == RELAY_NODE:
            return [name, "what happens inside", bits]
        first, _, rest = name.rpartition(" ")
        return [first or name or kind, rest if first else kind, bits]

    def box(self, node):
        """The item of a node."""
        flow = self.grouping.through(node)
        longest = max(map(len, self.lines(node))) * CHARACTER + 14
        return Item(node, min(max(longest, flow * self.scale + 10, 84), self.width - 2 * MARGIN), flow, True)

    def rows_of(self, layers):
        """The items of each row. A layer that is too wide for the picture becomes several rows."""
        rows = []
        for layer in range(max(layers.values()) + 1):
            row, used = [], 0
            for node in (node for node in layers if layers[node] == layer):
                item = self.items[node]
                if row and used + item.width + GAP > self.width - 2 * MARGIN:
                    rows.append(row)
                    row, used = [], 0
                row.append(item)
                used += item.width + GAP
            rows.append(row)
        for index, row in enumerate(rows):
            for item in row:
                item.layer = index
        return rows

    def add_bands(self):
        """Adds the band of each flow, with an item in each row that it passes."""
        for (source, target), flow in self.grouping.flows.items():
            last, end = self.items[source], self.items[target]
            for layer in range(last.layer + 1, end.layer):
                item = Item(None, max(flow * self.scale, 2), flow, False)
                item.layer = layer
                self.rows[layer].append(item)
                self.add_band(last, item, flow, source, target)
                last = item
            self.add_band(last, end, flow, source, target)

    def add_band(self, upper, lower, flow, source, target):
        """Adds a band between two items."""
        band = [upper, lower, flow, source, target]
        upper.out.append(band)
        lower.into.append(band)
        self.bands.append(band)

    def arrange(self):
        """Orders each row by what leads to it and by what it leads to, in turn, and takes the order with the least
        crossings."""
        self.place_rows()
        best, order = None, None
        for turn in range(12):
            ends, rows = (0, self.rows) if turn % 2 == 0 else (1, self.rows[::-1])
            for row in rows:
                row.sort(key=lambda item: mean([band[ends].middle() for band in item.bands(ends)], item.middle()))
                self.place_row(row)
            crossings = self.crossings()
            if best is None or crossings < best:
                best, order = crossings, [list(row) for row in self.rows]
        self.rows = order
        self.place_rows()
        self.fits = all(self.gap(row) >= LEAST_GAP for row in self.rows)
        for item in (item for row in self.rows for item in row):
            item.into.sort(key=lambda band: band[0].middle())
            item.out.sort(key=lambda band: band[1].middle())

    def crossings(self):
        """How much flow crosses other flow."""
        total = 0
        for index, (upper, lower, flow, _, _) in enumerate(self.bands):
            for above, below, other, _, _ in self.bands[index + 1 :]:
                if above.layer == upper.layer:
                    is_crossed = (upper.left - above.left) * (lower.left - below.left) < 0
                    total += min(flow, other) if is_crossed else 0
        return total

    def place_rows(self):
        """Sets the left edges of all items."""
        for row in self.rows:
            self.place_row(row)

    def place_row(self, row):
        """Sets the left edges of the items of a row; one with more than fits has smaller gaps."""
        gap = self.gap(row)
        left = (self.width - sum(item.width for item in row) - gap * (len(row) - 1)) / 2
        for item in row:
            item.left = left
            left += item.width + gap

    def gap(self, row):
        """The gap between the items of a row."""
        total = sum(item.width for item in row)
        return min(GAP, (self.width - 2 * MARGIN - total) / max(len(row) - 1, 1))

    def top(self, layer):
        """The upper edge of a row."""
        return MARGIN + layer * (BOX + BETWEEN)

    def svg(self, label):
        """The picture."""
        height = self.top(len(self.rows) - 1) + BOX + MARGIN
        parts = [
            f'<svg class="flow" viewBox="0 0 {self.width} {height}" width="{self.width}" height="{height}" '
            f'role="img" aria-label="{html.escape(label)}">'
        ]
        parts += [self.band_svg(band) for band in self.bands]
        parts += [self.pass_svg(item) for row in self.rows for item in row if not item.is_box]
        parts += [self.box_svg(item) for row in self.rows for item in row if item.is_box]
        return "\n".join(parts + ["</svg>"])

    def side(self, source, target):
        """The class of a band: on which side of the cut it is."""
        is_secret = source[0] in (SOURCE[0], SECRET_SIDE) or target[0] in (SECRET_SIDE, CUT)
        return "secret" if is_secret else "seen"

    def edge(self, item, bands, band):
        """Where a band begins at the edge of an item: its left and its right."""
        total = sum(other[2] for other in bands) * self.scale
        before = sum(other[2] for other in bands[: bands.index(band)]) * self.scale
        left = item.middle() - total / 2 + before
        return left, left + max(band[2] * self.scale, 1.5)

    def band_svg(self, band):
        """A band from one item to another."""
        upper, lower, flow, source, target = band
        left, right = self.edge(upper, upper.out, band)
        low_left, low_right = self.edge(lower, lower.into, band)
        top, bottom = self.top(upper.layer) + BOX, self.top(lower.layer)
        half = (top + bottom) / 2
        shape = (
            f"M{left:.1f} {top} C{left:.1f} {half} {low_left:.1f} {half} {low_left:.1f} {bottom} "
            f"H{low_right:.1f} C{low_right:.1f} {half} {right:.1f} {half} {right:.1f} {top} Z"
        )
        names = html.escape(f"{node_text(source)} to {node_text(target)}: {bits_text(flow)}")
        ends = f'data-from="{source[0] if upper.is_box else ""}" data-to="{target[0] if lower.is_box else ""}"'
        mark = f'class="band {self.side(source, target)}" data-flow="{flow}" {ends}'
        return f'<path {mark} d="{shape}"><title>{names}</title></path>'

    def pass_svg(self, item):
        """The stretch of a long band beside the boxes of a row."""
        band, top = item.into[0], self.top(item.layer)
        width = max(item.flow * self.scale, 1.5)
        return (
            f'<rect class="band {self.side(band[3], band[4])}" x="{item.middle() - item.flow * self.scale / 2:.1f}" '
            f'y="{top}" width="{width:.1f}" height="{BOX}"/>'
        )

    def box_svg(self, item):
        """A box with its lines of text."""
        kind = "source" if item.node == SOURCE else "sink" if item.node == SINK else item.node[0].split(" ")[0]
        top = self.top(item.layer)
        parts = [
            f'<g class="box {kind}"><title>{html.escape(node_text(item.node))}</title>'
            f'<rect x="{item.left:.1f}" y="{top}" width="{item.width:.1f}" height="{BOX}" rx="5"/>'
        ]
        most = int((item.width - 8) / CHARACTER)
        for index, line in enumerate(self.lines(item.node)):
            text = line if len(line) <= most else line[: most - 1] + "…"
            place = f'x="{item.middle():.1f}" y="{top + 15 + 14.5 * index}"'
            parts.append(f'<text class="line{index}" {place} text-anchor="middle">{html.escape(text)}</text>')
        return "".join(parts + ["</g>"])


def picture_of(facts, places, width):
    """The picture of the finest grouping that fits into a width."""
    for level in LEVELS:
        grouping = Grouping(facts, places, level)
        if len(grouping.nodes()) <= MOST_NODES or level == LEVELS[-1]:
            picture = Picture(grouping, facts, width)
            if picture.fits:
                break
    return picture


def mean(values, default):
    """The mean of some values."""
    return sum(values) / len(values) if values else default


def bits_text(bits):
    """A number of bits in words."""
    return f"{bits:,} bit" + ("" if bits == 1 else "s")


def node_text(node):
    """A node in words."""
    if node == SOURCE:
        return "the secret"
    if node == SINK:
        return "what is seen"
    name = node[1].replace("|", ", ")
    return f"cut in {name}".removesuffix(" in ") if node[0] == CUT else name or f"the {node[0]}"
