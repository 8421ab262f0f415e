"""The page of `bound`: all outputs that a program can have, of every secret whose run ends and breaks no region, with
the choices that lead to them; or why that is unclear, and what to change."""
import shlex
from os.path import basename as base

from answering import command_words, script_words
from best_words import again_words, beside_lines
from bound_words import FREE_WORDS, advice, advice_at, claim, numbers_words, parting_lines, reason_kind
from bounding import Bounding, choices_by_point
from decision_tree import MOST_STATES, MOST_WAYS, DecisionGraph, GraphLines, Leaf, TooMany, address_words
from document import Commands, Folded, Section, Table, Words
from graph_picture import GraphPicture
from guest import shown
from instruction_text import instruction_text, slot_words
from judged import KINDS
from parting import Parting
from pieces_of_code import Marks, code_sections
from rejection_page import lines_table, point_text
from run_facts import Inputs, cut_of
from sampling import trust_of

MOST_OUTPUTS, TREE, WHATEVER = 50, "The decisions", "Whatever the secret is"
POINTER = (
    "A number that is measured is that of a run. This looks for the least bound of the outputs of all secrets, and so "
    "does make NAME.bound with the makefile for guests:"
)
NOT_SAID = (
    "It is said for {public}, and for secrets of this length. It is not said of time, and not of how likely a secret "
    "is. A listed output need not be that of a secret."
)
MANY = (
    "The states at which a bit is chosen are not shown: there are more than {states}, or more than {ways} ways between "
    "them, or a path comes to the limit of turns."
)


class Bounded:
    """What `bound` answers about a cut, beside what is measured of a secret where one is named."""

    def __init__(self, asked, inputs, named, program, is_any_public=False):
        self.inputs, self.cut_name, self.budget, self.program = inputs, named[0], int(named[1]), program
        self.cut = cut_of(self.cut_name)
        self.secret, self.measured = (named + [None])[2], None
        self.bounding = Bounding(asked, inputs, program, is_any_public)
        self.answer = self.bounding.answer(self.cut, self.budget)
        if self.secret:
            self.measured = self.bounding.measured([self.secret]).bits
        self.graph, self.walk, self.parting = None, None, None
        named = Inputs(inputs.program, inputs.public, self.secret, inputs.options)
        self.trust = trust_of(asked, named, program, self.cut.secret_length)
        if self.answer.is_bounded:
            self.graph = self.whole_graph()
            return
        self.walk = self.bounding.walk(self.answer)
        if self.answer.is_waiting():
            self.parting = Parting(self.bounding.task(self.cut, self.budget))

    def whole_graph(self):
        """The graph of the states by the model; None where it is large, or the model says another thing."""
        try:
            graph = DecisionGraph(self.bounding.task(self.cut, self.budget))
        except TooMany:
            return None
        told = self.answer.numbers["paths"], self.answer.numbers["stopped"]
        is_same = all(one is None or one == other for one, other in zip(told, graph.paths()))
        return graph if is_same else None

    def choices(self):
        """How many choices were made at each point: at most on one path, or in the walk that is unclear."""
        if self.walk:
            return dict(choices_by_point(self.walk))
        return self.graph.choices() if self.graph else {}


def claim_section(bounded):
    """The answer in words."""
    answer, turns = bounded.answer, bounded.bounding.turns
    if answer.is_bounded:
        bits = answer.numbers["bits"]
        blocks = [Words(claim(answer, turns), "number", bits), Words(numbers_words(answer, bounded.measured))]
        blocks += [Words(bounded.trust.covers_words())] if bounded.trust else []
        public = "any public input of this length" if bounded.bounding.is_any_public else "this public input"
        return Section("", *blocks, Words(answer.line, "dim"), Words(NOT_SAID.format(public=public), "dim"))
    length = answer.cut.secret_length
    plural = f"{length:,} byte{'' if length == 1 else 's'}"
    blocks = [Words(f"Nothing is known of all secrets of {plural}: {answer.line}", "number")]
    return Section("", *blocks, Words(advice(answer.reason)))


def outputs_blocks(answer):
    """The outputs that there can be."""
    patterns = answer.patterns
    if not patterns:
        return []
    rows = [[str(number), pattern.bytes_text(), pattern.status_text(), str(pattern.free)]
            for number, pattern in enumerate(patterns[:MOST_OUTPUTS], 1)]
    table = Table(["Output", "Bytes", "Status", "Free bits"], rows, [{"data-output": row[0]} for row in rows], "points")
    blocks = [Words(FREE_WORDS, "dim")] if any(pattern.free for pattern in patterns) else []
    more = len(patterns) - MOST_OUTPUTS
    blocks += [Words(f"{more:,} more are not shown.", "dim")] if more > 0 else []
    stopped = answer.stopped_line
    blocks += [Words(f"The first path that stops: {stopped}")] if stopped else []
    return [table, *blocks]


def outputs_section(bounded):
    """The section of the outputs that there can be."""
    blocks = outputs_blocks(bounded.answer)
    return Section("All outputs that there can be", *blocks) if blocks else None


def best_section(search, name):
    """The least bound that was found of the outputs, on the page of a measured run; its files stand beside NAME."""
    answer, turns = search.best.answer, search.best.way.bounding.turns
    if answer.is_bounded:
        blocks = [Words(claim(answer, turns), "number"), Words(numbers_words(answer, search.measured))]
    else:
        blocks = [Words(f"No bound was found of all secrets: {answer.line}", "number"),
                  Words(advice(answer.reason))]
    blocks += [Words(line) for line in beside_lines(search)] + outputs_blocks(answer)
    blocks.append(Folded("The cut", answer.cut.text().rstrip("\n").split("\n")))
    told = f"It was looked for by {script_words('best.py')[1]}, which ended as {search.why}. To ask again:"
    return Section(WHATEVER, *blocks, Words(told), Commands([shlex.join(again_words(search, name))]))


def pointer_section(words):
    """How to come to a bound of all secrets, on every other page."""
    secret = [*words.secret, *(words.check or words.taint or ["SECRET"])[-1:]][0]
    command = shlex.join([*script_words("best.py"), words.program, words.public, secret])
    return Section(WHATEVER, Words(POINTER), Commands([command]))


def tree_section(bounded, places):
    """The decisions as a graph of states, where it is small; else how many paths there are."""
    if not bounded.answer.is_bounded or bounded.graph and isinstance(bounded.graph.first, Leaf):
        return None
    if not bounded.graph:
        many = MANY.format(states=MOST_STATES, ways=MOST_WAYS)
        return Section(TREE, Words(numbers_words(bounded.answer, None)), Words(many, "dim"))
    picture = GraphPicture(bounded.graph, bounded.answer.patterns).drawing()
    lines = GraphLines(bounded.graph, bounded.answer.patterns, bounded.program, places).lines()
    told = (
        "By the model in tools/model: each state at which a bit is chosen, with the ways on. Paths that come to the "
        "same state are the same from there on."
    )
    return Section(TREE, Words(told, "dim"), *([picture] if picture else []), Commands(lines, "tree"))


def where_section(bounded, program, places):
    """Where it is unclear, and what would have to cross there."""
    walk = bounded.walk
    if bounded.parting and bounded.parting.point:
        lines = parting_lines(bounded.parting, program, places)
        blocks = [Words(lines[0]), Commands(lines[1:2]), Words(lines[2]), Commands(lines[3:-1]), Words(lines[-1])]
        return Section("Where states part", *blocks)
    if walk is None or reason_kind(bounded.answer.reason) not in ("left", "base", "secret-code"):
        return None
    address = walk.begin
    instruction = program.instruction(address)
    text = instruction_text(instruction, address) if walk.kind == "step" else KINDS[walk.kind]
    words = f"It is turn {walk.made:,} of the walk, at {shown(address)}, {text}, {places.at(address).text()}."
    blocks = [Words(words), Words(places.line_of(places.at(address)).strip() or "No line of a source is known.", "dim")]
    missing = sorted(walk.missing().items(), key=lambda item: item[0][:2])
    if missing:
        blocks += [Words("These lines of the cut would let it cross; tools/bound.py adds such lines by itself:")]
        blocks.append(lines_table([point_text(*line, places) for line in missing]))
    return Section("Where", *blocks)


def choices_section(bounded, program, places):
    """The points of the cut, with the choices at each."""
    counted, walk = bounded.choices(), bounded.walk
    points = list(bounded.cut.points)
    if not points:
        return None
    rows = []
    for point in points:
        place = places.at(point[1])
        text = f"{shown(point[1])} {instruction_text(program.instruction(point[1]), point[1])}"
        number = str(counted.get(point, 0)) if walk or bounded.graph else "-"
        row = [number, address_words(point), place.text(), text, slot_words(point[2])]
        rows.append([*row, places.line_of(place).strip() or "-"])
    blocks = [Table(["Choices", "Point", "Place", "Instruction", "What passes", "Source"], rows, None, "points")]
    if walk and counted:
        blocks.append(Words(advice_at(max(counted, key=counted.get))))
    of_paths = "on the path that is unclear" if walk else "on one path, at most"
    told = f"Choices: how many bits were chosen at the point {of_paths}."
    told = told if walk or bounded.graph else "There are many states, so that the choices are not counted."
    return Section("Where bits cross", Words(told, "dim"), *blocks)


def bound_page(bounded, program, places):
    """The title and the sections of the page."""
    inputs, answer = bounded.inputs, bounded.answer
    name = base(inputs.program)
    word = "All outputs" if answer.is_bounded else "No bound for the outputs"
    sections = [claim_section(bounded), outputs_section(bounded), tree_section(bounded, places),
                where_section(bounded, program, places), choices_section(bounded, program, places)]
    choices = {}
    for point, count in bounded.choices().items():
        choices[point[1]] = choices.get(point[1], 0) + count
    cut = {point[1] for point in bounded.cut.points}
    marks = Marks({}, cut | set(choices), None if answer.is_bounded else bounded.walk.begin)
    key = "Marked: where bits cross." if answer.is_bounded else "Marked: where it is unclear, and where bits cross."
    sections += code_sections(program, places, marks, Words(key, "dim"))
    again = [*command_words(), "bound", inputs.program, inputs.public, bounded.cut_name, str(bounded.budget)]
    lines = [shlex.join([*again, *inputs.options, *bounded.bounding.flags(), "--list"])]
    sections.append(Section("Ask again", Commands(lines)))
    return f"{word} of {name}", [section for section in sections if section]


def bounded_of(asked, words, options, program):
    """What the words of the command line ask about."""
    named = [*words.bound, *words.secret]
    return Bounded(asked, Inputs(words.program, words.public, None, options), named, program, words.any_public)
