"""A secret that is judged with a cut and a budget, and what the pages of `check` and of `taint` say alike."""
import shlex
from os.path import basename as base

from answering import command_words
from document import Commands, Section, Table, Words
from flow_picture import bits_text
from guest import RealGuest, shown
from instruction_text import instruction_text, slot_words
from pieces_of_code import Marks, code_sections
from run_facts import cut_of, read
from verdicts import USUAL_TURNS

KINDS = {"enter": "the entry of a region", "leave": "the leave of a region", "skip": "the skip of a region"}


class JudgedSecret:
    """A secret that a program is asked about: `line` is the program's, and `model_line` the model's."""

    def __init__(self, asked, inputs, cut_name, budget, program):
        self.asked, self.inputs, self.cut_name, self.program = asked, inputs, cut_name, program
        self.cut, self.budget = cut_of(cut_name), int(budget)
        self.named = [inputs.program, inputs.public, cut_name, budget, inputs.secret]
        self.regions, self.public, self.secret = inputs.regions(), read(inputs.public), read(inputs.secret)
        self.table, self.limit = int(inputs.option("--rules") or 1), int(inputs.option("--turns") or USUAL_TURNS)

    def line_of(self, command, options):
        """What a command says of the secret."""
        return self.asked.first_line([command, *self.named, *options])

    def run_inputs(self):
        """What a run of the guest is made of."""
        return self.program.image, self.public, self.secret, self.regions

    def guest(self):
        """The guest at its start."""
        return RealGuest(*self.run_inputs())

    def widened(self):
        """The cut with lines of its own, to which some may be added."""
        cut = self.cut.migrated()
        cut.version, cut.points = self.cut.version, dict(self.cut.points)
        return cut


def listed(point, cut):
    """All bits that a cut lets cross at a point."""
    masks = 0
    for _, mask in sum(cut.points.get(point, ([], [])), []):
        masks |= mask
    return masks


def verdict_blocks(judged):
    """What the program says, and what the model says where that is another thing."""
    blocks = [Words(judged.line, "number")]
    if judged.line != judged.model_line:
        blocks.append(Words(f"The model in tools/model says another thing, which is a fault: {judged.model_line}"))
    return blocks


def place_blocks(program, places, address, kind, turn):
    """Where the verdict falls: the turn in words, the instruction or the kind of the turn, and the line of a source."""
    place = places.at(address)
    text = instruction_text(program.instruction(address), address) if kind == "step" else KINDS[kind]
    parts = [f"It is {turn}, at {shown(address)}", text] + ([place.text()] if place.function else [])
    line = places.line_of(place).strip() or "No line of a source is known."
    return [Words(", ".join(parts) + "."), Words(line, "dim")]


def crossing_section(run, budget, places):
    """The bits that crossed at each point, of a run that has them."""
    if run is None or not run.by_point:
        return None
    rows = [
        [str(bits), f"{point[0]} {shown(point[1])} {point[2]}", places.at(point[1]).text(), slot_words(point[2])]
        for point, bits in run.by_point.items()
    ]
    words = f"Up to there {bits_text(len(run.bits))} crossed; the budget is {budget}."
    return Section("What crossed", Words(words), Table(["Bits", "Point", "Place", "What"], rows, None, "points"))


def judged_page(judged, word, sections, run, begin, places):
    """The title and the sections of the page; `run` has the bits that crossed, and stands where `begin` says."""
    inputs = judged.inputs
    title = f"{base(inputs.secret)} is {word} by {base(judged.cut_name)} in {base(inputs.program)}"
    sections = [*sections, crossing_section(run, judged.budget, places)]
    if run:
        bits = {}
        for point, count in run.by_point.items():
            bits[point[1]] = bits.get(point[1], 0) + count
        marks = Marks(bits, {point[1] for point in judged.cut.points}, begin)
        key = Words("Marked: where it is, and the cut with the bits that crossed there.", "dim")
        sections += code_sections(judged.program, places, marks, key)
    again = shlex.join([*command_words(), *inputs.words("measure")]) + " >cut"
    return title, [section for section in [*sections, Section("Measure this secret", Commands([again]))] if section]
