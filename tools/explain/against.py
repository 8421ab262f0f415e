"""Two measurements side by side: that of a page, and an earlier one, of which a cut is left or a page of explain.py."""
import html
import re

from cuts import point_order
from document import Section, Table, Words
from flow_picture import bits_text
from guest import shown
from misleading import HASH, program_hash
from run_facts import Unusable, cut_in, read

IN_PAGE = re.compile(rb"<summary>The cut</summary><pre[^>]*>(flowcheck-cut .*?\nend)\s*</pre>", re.DOTALL)
OTHER = "It is of another program, or of another build: {} of its points are no places of this one."


class Earlier:
    """An earlier measurement: its number and the bits of each point."""

    def __init__(self, name):
        self.name, text = name, read(name)
        page, self.hash = IN_PAGE.search(text), HASH.search(text)
        if page:
            text = html.unescape(page[1].decode()).encode() + b"\n"
        elif text.startswith(b"<!DOCTYPE"):
            raise Unusable(f"{name}: this page has no cut; a page of one measured run has one")
        self.cut = cut_in(name, text)
        self.bits = {point: sum(count * mask.bit_count() for count, mask in runs + (rest if not runs else []))
                     for point, (runs, rest) in self.cut.points.items()}

    def notes(self, file):
        """What may mislead: that an earlier page is of another program file."""
        if self.hash is None or self.hash[1].decode() == program_hash(file):
            return []
        return [f"{self.name} is of another program, or of another build: its SHA-256 is {self.hash[1].decode()}."]


def against_section(facts, earlier, program, places):
    """Both measurements as a table."""
    now = {cut.point: cut.bits for cut in facts.cut_points}
    rows, strange = [], 0
    for point in sorted({*now, *earlier.bits}, key=point_order):
        place = places.at(point[1])
        is_here = program.is_code(point[1])
        strange += not is_here
        region = f"region {point[0]}: " if point[0] else ""
        where = f"{region}{place.function or ''} {place.line_text()}".strip() or "-"
        cells = [str(bits[point]) if point in bits else "-" for bits in (earlier.bits, now)]
        source = places.line_of(place).strip() if is_here else ""
        rows.append([*cells, f"{shown(point[1])} {point[2]}", where, source or "-"])
    before, after = earlier.cut.bits, facts.numbers["bits"]
    difference = bits_text(abs(before - after)) + (" fewer" if after < before else " more")
    change = "as many" if before == after else difference
    first = f"The earlier measurement has {bits_text(before)}, this one {bits_text(after)}: {change}."
    heads = ["Before", "Now", "Point", "Place in this program", "Source"]
    blocks = [Words(first, "", f"{before} {after}")] + ([Table(heads, rows, None, "points")] if rows else [])
    told = "The number before is that of the cut's line `bits`. Points of another build are named by their addresses."
    more = [Words(OTHER.format(strange))] if strange else []
    return Section(f"Beside {earlier.name}", *blocks, *more, Words(told, "dim"))
