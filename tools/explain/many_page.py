"""The page of several runs that are measured together: the one cut, and what crosses at it in each run."""
import shlex
from os.path import basename as base

from answering import command_words
from document import Commands, Folded, Section, Table, Words
from flow_picture import bits_text
from guest import shown
from instruction_text import instruction_text, slot_words
from measured_page import outputs_text
from misleading import of_number, of_reads, section_of
from pieces_of_code import Marks, code_sections


def number_section(many):
    """The number in words."""
    bits, count = many.cut.bits, len(many.runs)
    first = f"One cut lets at most {bits_text(bits)} pass in each of these {count} runs."
    most = max(run.total() for run in many.runs)
    second = (
        f"All secrets that check accepts with it and a budget of {bits_text(bits)} have at most {outputs_text(bits)} "
        f"together. In the run with the most {bits_text(most)} cross."
    )
    return Section("", Words(first, "number", bits), Words(second))


def point_row(many, name, point, program, places):
    """A point of the cut as a row."""
    address, slot, place = point[1], point[2], places.at(point[1])
    text = instruction_text(program.instruction(address), address)
    region = f"region {point[0]}: " if point[0] else ""
    crossed = [run.bits[point] for run in many.runs]
    span = str(min(crossed)) if min(crossed) == max(crossed) else f"{min(crossed)} to {max(crossed)}"
    return [name, str(many.capacities[point]), span, region + (place.function or "-"), place.line_text() or "-",
            f"{shown(address)} {text}", slot, slot_words(slot), places.line_of(place).strip() or "-"]


def cut_section(many, program, places):
    """The cut as a table."""
    if not many.cut.points:
        return Section("Where the bits pass", Words("No bit of a secret reaches the output: the cut has no point."))
    heads = ["Point", "Bits", "In a run", "Function", "Line", "Instruction", "Slot", "What passes", "Source"]
    rows = [point_row(many, f"p{number}", point, program, places) for number, point in enumerate(many.cut.points)]
    return Section("Where the bits pass", Table(heads, rows, None, "points"))


def runs_section(many):
    """Each run as a row: what crosses at each point, and what `check` says."""
    rows = []
    for run in many.runs:
        parts = [f"p{number}: {bits}" for number, bits in enumerate(run.bits.values()) if bits]
        line = run.line.split()
        rows.append([base(run.secret), str(run.total()), ", ".join(parts) or "-", " ".join(line[:1] + line[2:])])
    heads = ["Secret", "Bits", "At each point", "Check with this cut and number"]
    return Section("What crosses in each run", Table(heads, rows, None, "points"))


def many_page(many, program, places, told=()):
    """The title and the sections of the page; `told` are notes of what else may mislead."""
    inputs, bits = many.inputs, {}
    for point, capacity in many.capacities.items():
        bits[point[1]] = bits.get(point[1], 0) + capacity
    marks = Marks(bits)
    title = f"{bits_text(many.cut.bits)} of {len(many.runs)} secrets in {base(inputs.program)}"
    notes = of_number(many.cut.bits) + [note for reads in many.reads for note in of_reads(*reads)] + [*told]
    sections = [number_section(many), section_of(notes), cut_section(many, program, places), runs_section(many)]
    key = Words("In red: the cut.", "dim", text="Marked by >: the cut.")
    sections += code_sections(program, places, marks, key)
    words = [inputs.program, inputs.public, *many.secrets, *inputs.options]
    check = [*command_words(), "check", inputs.program, inputs.public, "cut", str(many.cut.bits), "OTHER"]
    lines = [shlex.join([*command_words(), "measure-all", *words]) + " >cut",
             shlex.join(check + inputs.without("--rules", "--cut"))]
    cut = Folded("The cut", many.cut_text.rstrip("\n").split("\n"))
    sections.append(Section("Check another secret", Commands(lines), cut))
    return title, [section for section in sections if section]
