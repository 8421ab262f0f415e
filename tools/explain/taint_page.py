"""The page of a secret that `taint` is asked about: what decides by bits that did not cross, and what clears it."""
from document import Section, Table, Words
from flow_picture import bits_text
from guest import shown
from instruction_text import slot_words
from judged import judged_page, listed, place_blocks, verdict_blocks
from measured_page import outputs_text
from rejection_page import lines_table, own_measure, point_text, reason_words, value_text

MOST_ROWS = 20
REASONS = {
    "left": "The run decides by the value of this slot, or shows it, and some of its bits may differ in another run "
    "that crosses with the same bits: they have not crossed.",
    "secret-code": "This instruction is made of bits that may differ in another run, and have not crossed.",
    "base": "A range of the region begins where this register says, and some of its bits may differ in another run and "
    "have not crossed.",
}


def taint_words(reason):
    """What a reason means."""
    words = reason.split()
    return REASONS.get(words[0]) or REASONS.get((words + [""] * 3)[2]) or reason_words(reason)


def verdict_section(tainting):
    """The finding in words, with what `check` says of the same secret."""
    blocks = verdict_blocks(tainting)
    if tainting.is_clean:
        blocks.append(Words(
            "Nothing decides by bits that have not crossed. So check accepts this secret with the same bits and the "
            "same output, and of any secrets that it accepts with this budget at most "
            f"{outputs_text(tainting.budget)} arise."
        ))
        return Section("", *blocks)
    blocks.append(Words(taint_words(tainting.reason)))
    blocks.append(Words(f"The check with two machines says of it: {tainting.check_line}", "dim"))
    return Section("", *blocks)


def shown_of(values):
    """Of the values of a turn those that are shown."""
    return values if len(values) <= MOST_ROWS else ([one for one in values if one[3]] or values)[:MOST_ROWS]


def where_section(tainting, program, places):
    """The turn at which it is found."""
    run = tainting.run
    if run is None or tainting.is_clean:
        return None
    blocks = place_blocks(program, places, run.begin, run.kind, f"turn {run.made:,} of the run")
    found = run.clearing.left[0] if run.clearing.left else None
    rows, attributes = [], []
    for point, value, mask, left in shown_of(run.values()):
        sign = " (decides)" if point == found else ""
        crossing = shown(mask & ~left) if mask & ~left else "-"
        row = [point[2] + sign, slot_words(point[2]), value_text(value, point)]
        rows.append([*row, shown(mask), crossing, shown(left)])
        attributes.append({"data-slot": rows[-1][0], "class": "cut" if sign else ""})
    heads = ["Slot", "What passes", "Value", "May differ", "Crosses", "Left"]
    return Section("Where", *blocks, Table(heads, rows, attributes, "slots") if rows else None)


def clearing_section(tainting, places):
    """The line of a cut that would clear what is left, and all lines that would clear the secret."""
    if tainting.run is None or tainting.is_clean:
        return None
    blocks = []
    if tainting.lines:
        words = "This line in the cut would have cleared it:"
        blocks += [Words(words), lines_table([point_text(*line, places) for line in tainting.lines])]
    added = [point for point, masks in tainting.wider.points.items() if tainting.cut.points.get(point) != masks]
    if len(added) > len(tainting.lines):
        masks = [(point, listed(point, tainting.wider)) for point in added]
        blocks += [Words(f"With it more is left behind; {len(added)} lines clear all of it:")]
        blocks.append(lines_table([point_text(*line, places) for line in masks[:MOST_ROWS]]))
    if added or tainting.reason.startswith("budget"):
        begin = ("With it" if len(added) == 1 else "With them") if added else "With a greater budget"
        blocks.append(Words(whole_words(tainting, begin)))
    return Section("What would clear it", *blocks, *own_measure(tainting, places)) if blocks else None


def whole_words(tainting, begin):
    """What is found with all lines and no budget."""
    whole = tainting.whole
    if whole.word == "clean":
        return f"{begin} the secret is clean, and {bits_text(len(whole.bits))} cross{'es' * (len(whole.bits) == 1)}."
    return f"{begin} the secret is still unclear: {whole.text}."


def taint_page(tainting, program, places):
    """The title and the sections of the page."""
    run, word = tainting.run, "clean" if tainting.is_clean else "unclear"
    sections = [verdict_section(tainting), where_section(tainting, program, places), clearing_section(tainting, places)]
    return judged_page(tainting, word, sections, run, None if tainting.is_clean or not run else run.begin, places)
