"""The sections of a page that say why the number is what it is, and what would lower it."""
from document import Section, Table, Words
from flow_picture import bits_text
from guest import shown
from remedies import remedies_for
from tool import counted

MOST_ROWS, MOST_STEPS = 8, 12


def where_cells(point, places):
    """The place and the line of the source of a point."""
    place = places.at(point[1])
    return [f"{shown(point[1])} {place.text() if place.function else ''}".strip(), places.line_of(place).strip() or "-"]


def table_of(heads, items, reasons, places, number):
    """A table of points, of which only the first are named."""
    rows = [[number(item[1]), reasons.how(item[0]), *where_cells(item[0], places)] for item in items[:MOST_ROWS]]
    if len(items) > MOST_ROWS:
        rows.append(["", f"and at {len(items) - MOST_ROWS:,} more", "", ""])
    return Table(heads, rows, None, "points")


def way_words(reasons, point, places):
    """The way of bits to a point in words; what repeats, and plain uses of registers, are left out."""
    steps = []
    for passed in reasons.way(point):
        if passed[2] in ("u1", "u2"):
            continue
        place = places.at(passed[1])
        step = f"{reasons.how(passed)} at {place.line_text() or place.text()}"
        steps += [step] if step not in steps[-1:] else []
    if len(steps) > MOST_STEPS:
        steps = [*steps[: MOST_STEPS // 2], "...", *steps[-MOST_STEPS // 2 :]]
    return ", ".join(steps)


def why_section(reasons, places):
    """Why the cut is at a read, and that the number is more than the output can hold."""
    bits, most = reasons.facts.numbers["bits"], reasons.output_bits()
    blocks = []
    if bits > most:
        output = counted(reasons.facts.numbers["output"], "byte")
        blocks.append(Words(
            f"The number is above what the output can hold: an output of {output} with its status has "
            f"{bits_text(most)}. What is counted beyond that is how the run went: decisions, addresses and calls."))
    if reasons.reads:
        blocks += read_blocks(reasons, places)
    return Section("Why the number is what it is", *blocks) if blocks else None


def read_blocks(reasons, places):
    """Why the cut is at a read."""
    shown_at = reasons.shown()
    blocks = [Words(
        "The cut is where the secret is read, because the places behind it at which these bits pass have as many bits "
        "or more together. Here they are seen:")]
    heads = ["Bits", "What the run did with them", "Place", "Source"]
    blocks.append(table_of(heads, shown_at, reasons, places, str))
    if shown_at:
        blocks.append(Words(f"A way of the most of them: {way_words(reasons, shown_at[0][0], places)}."))
    grown = reasons.grown()
    if grown:
        blocks.append(Words("On ways from there more bits may differ behind an instruction than before it:"))
        heads = ["Before and behind", *heads[1:]]
        blocks.append(table_of(heads, grown, reasons, places, lambda sums: f"{sums[0]:,} to {sums[1]:,}"))
    for cut in reasons.reads:
        if cut.visits > 1:
            place = places.at(cut.address).text()
            blocks.append(Words(f"All {cut.visits:,} bytes that are read at {place} are one point: the cut has all of "
                                "its bits, or none."))
    return blocks


def remedies_section(reasons):
    """What would lower the number."""
    remedies = remedies_for(reasons.kinds()) if reasons.facts.numbers["bits"] else []
    if not remedies:
        return None
    told = Words("docs/GUIDE.md, \"Why the number is what it is, and what to change\", tells of each.", "dim")
    return Section("What to change", *[block for remedy in remedies for block in remedy.blocks()], told)
