"""The page of a measured run: the number, the cut, the picture, the sources, the regions, and what to do next."""
import shlex
from os.path import basename as base

from against import against_section
from answering import command_words, script_words
from document import Commands, Drawing, Folded, Section, Table, Words
from flow_picture import bits_text, node_text, picture_of
from guest import shown
from instruction_text import NAMES, instruction_text, slot_words
from misleading import of_number, of_reads, section_of
from noted_run import noted_of, output_section
from pieces_of_code import Marks, listing_blocks, source_blocks
from reasons import Reasons
from reasons_page import remedies_section, why_section
from running import reads_of
from tool import counted

WIDE, NARROW, NO_NUMBER = 860, 340, "No number"


def outputs_text(bits):
    """How many outputs so many bits can tell apart."""
    if bits == 0:
        return "one output"
    return f"{1 << bits:,} different outputs" if bits <= 40 else f"2^{bits} different outputs"


def number_section(facts):
    """The number in words."""
    bits, length = facts.numbers["bits"], facts.numbers["secret"]
    whole = f"its secret of {counted(length, 'byte')} ({bits_text(8 * length)})"
    if bits:
        first = f"The output of this run can have given away at most {bits_text(bits)} of {whole}."
    else:
        first = f"The output of this run can have given away nothing of {whole}."
    promise = (
        f"All secrets that check accepts with this cut and a budget of {bits_text(bits)} have at most "
        f"{outputs_text(bits)} together. The output is what the guest writes and its exit status; time is not counted."
    )
    turns, output, status, points, links = (
        facts.numbers[name] for name in ("turns", "output", "status", "points", "links")
    )
    run = (
        f"The run took {counted(turns, 'turn')}, wrote {counted(output, 'byte')} and exited with status {status}. Its "
        f"graph has {counted(points, 'point')} and {counted(links, 'link')}."
    )
    return Section("", Words(first, "number", bits), Words(promise), Words(run, "dim"))


def cut_section(facts, program, places):
    """The cut as a table."""
    if not facts.cut_points:
        return Section("Where the bits pass", Words("No bit of the secret reaches the output: the cut has no point."))
    heads = ["Bits", "Function", "Line", "Instruction", "Slot", "Visits", "What passes", "Source"]
    rows, attributes = [], []
    for cut in facts.cut_points:
        place = places.at(cut.address)
        region = f"region {cut.region}: " if cut.region else ""
        text = instruction_text(program.instruction(cut.address), cut.address)
        row = [str(cut.bits), region + (place.function or "-"), place.line_text() or "-"]
        row += [f"{shown(cut.address)} {text}", cut.slot]
        row += [f"{cut.visits:,}", f"{slot_words(cut.slot)}, mask {shown(cut.mask)}"]
        rows.append(row + [places.line_of(place).strip() or "-"])
        name = f"{cut.region} {shown(cut.address)} {cut.slot}"
        attributes.append({"data-cut": name, "data-bits": cut.bits, "data-visits": cut.visits})
    words = (
        "The cut is the set of places nearest to the secret through which all of these bits pass. To bring the number "
        "down, change what happens there or on the way from there to the output."
    )
    return Section("Where the bits pass", Table(heads, rows, attributes, "points"), Words(words))


def picture_section(facts, places):
    """The flow as a picture."""
    if not facts.numbers["bits"]:
        return Section("The flow", Words("Nothing flows from the secret to what is seen."))
    label = f"{bits_text(facts.numbers['bits'])} flow from the secret to what is seen, through the cut"
    wide, narrow = (picture_of(facts, places, width) for width in (WIDE, NARROW))
    lines = [
        f"{bits_text(flow):>12}   {node_text(source)}  ->  {node_text(target)}"
        for (source, target), flow in wide.grouping.flows.items()
    ]
    first = f"One maximum flow, {level_words(wide, places)}"
    colours = "blue on the secret's side of the cut, amber on the side that is seen, and as wide as the bits that flow"
    rest = "what goes to and fro is left out. Other maximum flows may take other ways; all of them pass the cut."
    words = Words(f"{first}: {colours}; {rest}", "dim", text=f"{first}; {rest}")
    return Section("The flow", Drawing(wide.svg(label), narrow.svg(label), lines), words)


def level_words(picture, places):
    """What a box of a picture is."""
    if picture.grouping.level in ("point", "line"):
        return "by line" if places.has_lines() else "by function or instruction"
    return "by function" if picture.grouping.level == "function" else "by the sides of the cut"


def annotated_sections(facts, program, places):
    """The annotated sources and listings."""
    cut_bits = {}
    for cut in facts.cut_points:
        cut_bits[cut.address] = cut_bits.get(cut.address, 0) + cut.bits
    marks = Marks(cut_bits, {point[1] for point in facts.passed()})
    sources, listings = source_blocks(places, marks), listing_blocks(program, places, marks)
    cut, passed = "the cut, with the bits that pass there.", "secret bits pass."
    key = Words(f"In red: {cut} In blue: {passed}", "dim", text=f"Marked by >: {cut} Marked by |: {passed}")
    lack = "No line of a source is known, or no source was found: build with -g, and name its folder by --source."
    sections = [Section("The source", key if sources else Words(lack, "dim"), *sources)]
    if listings:
        sections.append(Section("The listing", key, *listings))
    return sections


def register_names(numbers):
    """Registers by name."""
    return ", ".join(NAMES[number] for number in numbers) or "-"


def range_text(span):
    """A range in words."""
    base, offset, length = span
    signed = offset - (1 << 32) if base and offset >> 31 else offset
    where = f"{NAMES[base]}{signed:+d}" if base else shown(offset)
    return f"{length} byte{'' if length == 1 else 's'} from {where}"


def regions_section(facts, places):
    """The regions of the run."""
    regions = facts.inputs.regions()
    if not regions:
        return None
    bits, rows, attributes = {}, [], []
    for cut in facts.cut_points:
        bits[cut.region] = bits.get(cut.region, 0) + cut.bits
    for region in regions:
        enter, leave = places.at(region.enter), places.at(region.leave)
        replay = "skipped" if region.number in facts.cut.skip else "run"
        ranges = "; ".join(map(range_text, region.ranges)) or "-"
        row = [str(region.number), replay]
        row += [f"{shown(region.enter)} {enter.text()}", f"{shown(region.leave)} {leave.text()}"]
        row += [register_names(region.outs), register_names(region.keep), ranges, str(bits.get(region.number, 0))]
        rows.append(row)
        attributes.append({"data-region": region.number, "data-skip": int(region.number in facts.cut.skip)})
    heads = ["Region", "Replay", "Entered at", "Left at", "Outputs", "Kept", "Memory", "Cut bits"]
    words = (
        "What happens inside a region that is skipped need not be the same for all secrets: only its outputs count, "
        "where the code behind it uses them."
    )
    return Section("The regions", Table(heads, rows, attributes, "points"), Words(words, "dim"))


def commands_section(facts):
    """The commands that check other secrets."""
    inputs, bits = facts.inputs, facts.numbers["bits"]
    usual = inputs.without("--rules", "--cut")
    measure = shlex.join([*command_words(), *inputs.words("measure")]) + " >cut"
    check = [*command_words(), "check", inputs.program, inputs.public, "cut", str(bits)]
    lines = [measure, shlex.join([*check, inputs.secret, *usual]), shlex.join([*check, "OTHER", *usual])]
    words = (
        "The first command writes the cut, the second checks this secret, which is accepted, and the third any other, "
        "or up to 64 of them."
    )
    again = "Of a secret that is rejected, this says where and why:"
    explain = [*script_words("explain.py"), inputs.program, inputs.public, "--check", "cut", str(bits), "OTHER"]
    return Section(
        "Check another secret",
        Words(words),
        Commands(lines),
        Words(again),
        Commands([shlex.join(explain + usual)]),
        Folded("The cut", facts.cut_text.rstrip("\n").split("\n")),
    )


def notes_of(facts, noted, earlier, program):
    """What may mislead."""
    notes = of_number(facts.numbers["bits"])
    notes += of_reads(*reads_of(noted.guest)[1], base(facts.inputs.secret)) if noted else []
    return notes + (earlier.notes(program.file) if earlier else [])


def measured_page(facts, program, places, earlier=None, notes=()):
    """The title and the sections of the page of a measured run, perhaps beside an earlier measurement; `notes` are
    what else may mislead."""
    inputs = facts.inputs
    title = f"{bits_text(facts.numbers['bits'])} of {base(inputs.secret)} in {base(inputs.program)}"
    noted = noted_of(facts, program)
    told = section_of([*notes_of(facts, noted, earlier, program), *notes])
    sections = [number_section(facts), told, output_section(noted)]
    sections.append(cut_section(facts, program, places))
    sections.append(against_section(facts, earlier, program, places) if earlier else None)
    reasons = Reasons(facts, noted, program)
    sections += [why_section(reasons, places), remedies_section(reasons), picture_section(facts, places)]
    sections += annotated_sections(facts, program, places) + [regions_section(facts, places), commands_section(facts)]
    return title, [section for section in sections if section]


def refused_page(text, inputs, program, places):
    """The title and the sections of the page of a run that is not measured."""
    words = text.split()
    addresses = [int(word, 16) for word in words if word.startswith("0x") and program.is_code(int(word, 16))]
    sections = [Section("", Words(f"This run gets no number: {text}", "number"), Words(refusal_words(words)))]
    if addresses:
        marks = Marks(parted=addresses[0])
        where = Words(f"It is at {places.at(addresses[0]).text()}, {shown(addresses[0])}.")
        sections.append(Section("Where", where, *source_blocks(places, marks), *listing_blocks(program, places, marks)))
    return f"{NO_NUMBER} for {base(inputs.secret)} in {base(inputs.program)}", sections


REFUSALS = {
    "fetch-outside": "The guest jumped to where no memory is.",
    "fetch-unaligned": "The guest jumped to an address that is no multiple of 4.",
    "illegal": "There is no instruction at this address. Was the program built with -march=rv32im?",
    "breakpoint": "The guest ran into a breakpoint, as compilers put them where a program cannot come.",
    "load-outside": "The guest read where no memory is. Without a start that sets gp, GNU ld needs -Wl,--no-relax.",
    "store-outside": "The guest wrote where no memory is. Without a start that sets gp, GNU ld needs -Wl,--no-relax.",
    "output-limit": "The guest wrote more than 1 MiB.",
    "secret-code": "An instruction of the run is made of secret bits.",
    "turns": "The guest did not exit within this number of turns. --turns sets another, up to 20000000.",
    "graph-limit": "The graph of the run is too large.",
    "usage": "The program takes no such words; an older one may not have this command.",
    "length": "The secrets have several lengths; the length is public, so that runs on one length alone have one cut.",
    "united-limit": "The graph of all runs together is too large.",
    "budget-limit": "More bits pass in all runs together than a budget can have.",
    "region": "A region of the region file is not what its declaration says; tools/regions.py finds what it writes.",
    "program": "This is no program file that the loader takes.",
    "regions": "The region file has a fault; tools/lint.py shows it.",
}


def refusal_words(words):
    """What a refusal means."""
    return next((REFUSALS[word] for word in words if word in REFUSALS), "The program answered this.")
