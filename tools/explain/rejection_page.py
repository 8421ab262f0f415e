"""The page of a secret that `check` is asked about: where the two runs part, and what would have covered it."""
import shlex

from answering import script_words
from document import Commands, Section, Table, Words
from flow_picture import bits_text
from guest import shown
from instruction_text import slot_words
from judged import judged_page, place_blocks, verdict_blocks
from learns import NotLearnt, learn
from measured_page import REFUSALS, outputs_text
from measures import Measured, Refused
from region_finding import Calls, NoRegion, around_calls

MOST_ROWS = 20
REASONS = {
    "budget": "The run of this secret lets more bits cross the cut than the budget allows.",
    "replay": "The replay, which knows the bits that crossed and not the secret, cannot go on as the real run does.",
    "parted": "The real run and the replay, which knows only the bits that crossed, go different ways here.",
    "output": "The real run and the replay, which knows only the bits that crossed, write different bytes here.",
    "turns": "The guest did not exit within the limit of turns; --turns sets another, up to 20000000.",
    "secret-length": "The secret does not have the length that the cut names; the length is public.",
    "undeclared": "Inside a region the guest wrote what the region does not declare.",
    "keep": "A register that the region says it keeps was not given back.",
    "call": "The guest made a call inside a region; leave the call out of the region.",
    "range": "A range of the region is not inside guest memory; its base register points elsewhere.",
}


def reason_words(reason):
    """What a reason means."""
    words = reason.split()
    if words[0] == "guest":
        return "The guest was stopped. " + REFUSALS.get(words[1], "")
    return REASONS[words[2] if words[0] == "region" else words[0]]


def verdict_section(rejection):
    """The verdict in words."""
    blocks = verdict_blocks(rejection)
    if rejection.is_accepted:
        words = (
            "Nothing parts the two runs. Of any secrets that this check accepts at most "
            f"{outputs_text(rejection.budget)} can arise."
        )
        return Section("", *blocks, Words(words))
    return Section("", *blocks, Words(reason_words(rejection.reason)))


def value_text(value, point):
    """A value of a slot."""
    if value is None:
        return "-"
    slot = point[2]
    if slot == "de":
        return "taken" if value else "not taken"
    is_byte = slot in ("in", "ou", "st") or slot[0] == "r" and slot != "rs"
    text = f"0x{value:02x}" if is_byte else shown(value)
    return text + (f" '{chr(value)}'" if is_byte and 32 <= value < 127 else f" ({value:,})" if not is_byte else "")


def shown_of(passed):
    """Of the values of a turn those that are shown: not all bytes of a long read, write or range."""
    if len(passed) <= MOST_ROWS:
        return passed
    kept = [one for one in passed if one.point[2] not in ("in", "ou") and one.point[2][0] != "r" or one.differs()]
    return kept[:MOST_ROWS]


def where_section(rejection, program, places):
    """The turn and the instruction at which the verdict falls."""
    lockstep = rejection.lockstep
    if lockstep is None or rejection.is_accepted:
        return None
    turn = f"turn {lockstep.number:,} of those that both runs make" if lockstep.turn else "where the run stands"
    blocks = place_blocks(program, places, lockstep.begin, lockstep.kind, turn)
    rows = []
    for passed in shown_of(lockstep.passed):
        sign = " (differs)" if passed.differs() else ""
        values = [value_text(value, passed.point) for value in (passed.real, passed.replayed)]
        mask = shown(passed.mask) if passed.mask else "-"
        rows.append([passed.point[2] + sign, slot_words(passed.point[2]), *values, mask])
    if len(rows) < len(lockstep.passed):
        rows.append(["", f"{len(lockstep.passed) - len(rows):,} more, which are the same", "", "", ""])
    if rows:
        heads = ["Slot", "What passes", "Real run", "Replay", "Mask of the cut"]
        attributes = [{"data-slot": row[0], "class": "cut" if "differs" in row[0] else ""} for row in rows]
        blocks.append(Table(heads, rows, attributes, "slots"))
    if rejection.reason.startswith("turns"):
        busiest = [[f"{count:,}", shown(place), places.at(place).text()] for place, count in lockstep.busiest()[:8]]
        blocks.append(Table(["Turns", "Instruction", "Place"], busiest, None, "points"))
    marks = lockstep.marks()
    if marks and not rejection.reason.startswith(("budget", "replay")):
        rows = [["Real run", marks[0]], ["Replay", marks[1]]]
        blocks.append(Table(["After the turn", "Stands at"], rows, None, "slots"))
    return Section("Where", *blocks)


def point_text(point, mask, places):
    """A point with its mask, as a row."""
    place = places.at(point[1])
    return [f"point {point[0]} {shown(point[1])} {point[2]} rest {shown(mask)}", place.text(), slot_words(point[2])]


def lines_table(rows):
    """A table of lines of a cut."""
    return Table(["Line of the cut", "Place", "What passes"], rows, None, "points")


def cover_section(rejection, places):
    """Which points would have covered the difference."""
    if rejection.is_accepted or rejection.lockstep is None:
        return None
    blocks, whole = [], rejection.whole
    if rejection.covers:
        rows = [point_text(point, mask, places) for point, mask in rejection.covers]
        blocks += [Words("These lines in the cut would have let the difference cross:"), lines_table(rows)]
        if whole.word == "accepted":
            blocks.append(Words(f"With them the secret is accepted, and {bits_text(len(whole.bits))} cross."))
        else:
            blocks.append(Words(f"With them the secret is still rejected: {whole.text}."))
    elif rejection.reason.startswith("budget"):
        if whole.word == "accepted":
            blocks.append(Words(f"With a budget of {bits_text(len(whole.bits))} this cut accepts the secret."))
        else:
            blocks.append(Words(f"Without any budget the secret would be rejected later: {whole.text}."))
    blocks += own_measure(rejection, places) + region_words(rejection, places) + declaration_words(rejection)
    return Section("What would have covered it", *blocks) if blocks else None


def own_measure(rejection, places):
    """What a measurement of this secret says, and the points of its cut that the given cut lacks."""
    try:
        run = rejection.program.image, rejection.public, rejection.secret, rejection.regions
        measured = Measured(*run, rejection.table, rejection.limit)
    except Refused:
        return []
    words = f"A measurement of this secret finds {bits_text(measured.bits)}; its own cut accepts it with that budget."
    lacking = [point for point in measured.cut().points if point not in rejection.cut.points]
    if not lacking:
        return [Words(words)]
    rows = [point_text(point, mask_of(measured, point), places) for point in lacking]
    return [Words(words + " That cut has these points, which the given one lacks:"), lines_table(rows)]


def mask_of(measured, point):
    """The secret bits that passed a point."""
    return measured.cut().points[point][1][0][1]


def region_words(rejection, places):
    """A region around the function in which the two runs part, tried by the model."""
    program, function = rejection.program, rejection.program.function_at(rejection.lockstep.begin)
    if not rejection.covers or function is None or function.name in ("main", "_start") or rejection.regions:
        return []
    image, public, secret, *_ = rejection.runs(rejection.cut, 0)
    try:
        bare = [one.bare(number) for number, one in enumerate(around_calls(Calls(program), [function]), 1)]
        regions = learn(image, public, secret, bare, rejection.limit)
        measured = Measured(image, public, secret, regions, 1, rejection.limit)
    except (NoRegion, NotLearnt, Refused):
        return []
    inputs = rejection.inputs
    command = [*script_words("regions.py"), inputs.program, function.name, "--public", inputs.public]
    words = (
        f"Or a region around the call of {function.name}: with it this run measures {bits_text(measured.bits)}, and "
        "what happens inside need not be the same. This writes it:"
    )
    return [Words(words), Commands([shlex.join([*command, "--secret", inputs.secret]) + " >regions"])]


def declaration_words(rejection):
    """How to declare what a break of a region names."""
    words = rejection.reason.split()
    if words[0] != "region":
        return []
    number = words[1]
    if words[2] == "undeclared" and words[3].startswith("x"):
        return [Words(f"Region {number} would have kept to its declaration with this register among its outs.")]
    if words[2] == "undeclared":
        address = int(words[3], 16)
        stack = rejection.lockstep.real.guest.at_entry[2]
        where = f'base "sp" and offset {address - stack}' if abs(address - stack) < 1 << 20 else f"offset {address}"
        return [Words(f"Region {number} would have kept to its declaration with a range of length 1 at {where}.")]
    if words[2] == "keep":
        return [Words(f"Region {number} would have kept to its declaration with {words[3]} among its outs instead.")]
    return []


def rejection_page(rejection, program, places):
    """The title and the sections of the page."""
    run, word = rejection.lockstep, "accepted" if rejection.is_accepted else "rejected"
    sections = [verdict_section(rejection), where_section(rejection, program, places), cover_section(rejection, places)]
    return judged_page(rejection, word, sections, run, None if rejection.is_accepted or not run else run.begin, places)
