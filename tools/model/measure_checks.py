"""What must hold of every run that is measured; the model is checked by itself."""
import itertools

import flows
from certificates import verify
from cuts import read_cut, read_regions
from guest import Image
from refusals import cut_fault
from verdicts import USUAL_TURNS, is_accepted_by_definition, judge, real_run

DEFINED_TURNS = 120


class Guest:
    """The guest of a trial of `measure`: what a run of it depends on."""

    def __init__(self, files, options):
        options = dict(options)
        self.image, self.public, self.secret = Image(files["program"]), files["public"], files["secret"]
        self.regions = read_regions(files["regions"]) if "--regions" in options else []
        self.limit, self.real = int(options.get("--turns", USUAL_TURNS)), None

    def judged(self, cut, budget):
        """The judgement of the secret under a cut."""
        self.real = self.real or real_run(self.image, self.public, self.secret, self.regions, self.limit)
        return judge(self.image, self.public, self.secret, self.regions, cut, budget, self.limit, self.real)

    def is_accepted_by_definition(self, cut, budget):
        """Whether the secret is accepted under a cut, as that is defined."""
        rest = self.regions, cut, budget, self.limit
        return is_accepted_by_definition(self.image, self.public, self.secret, *rest)


def cut_wrongs(guest, measured, is_thorough):
    """What is wrong with the cut of a measured run: it must be accepted, and so must its fold, bit for bit."""
    cut, bits = measured.cut(), measured.bits
    judged = guest.judged(cut, bits)
    if judged.word != "accepted":
        yield f"not accepted: {judged.text}"
    if guest.judged(cut.folded(), bits).text != judged.text:
        yield "the fold is judged otherwise"
    if sum(measured.run.passings.capacity(point) for point in cut.points) != bits:
        yield "the points of the cut have other capacities"
    if is_thorough and judged.turns <= DEFINED_TURNS and not guest.is_accepted_by_definition(cut, bits):
        yield "not accepted by the definition"
    for text in (cut.text(), cut.migrated().text(), cut.folded().text()):
        if cut_fault(text.encode()) or read_cut(text.encode()).text() != text:
            yield "the text of the cut is not read back"


def flow_wrongs(measured):
    """What is wrong with the flow and the side of a measured run."""
    answer = verify(measured.certificate().encode())
    if answer != (0, f"verified {measured.bits}\n"):
        yield f"certificate: {answer[1]}"
    yield from second_wrongs(measured)


def second_wrongs(measured):
    """What is wrong with the flow and the side beside those of networkx, where Python has it."""
    solved = measured.solved
    if flows.networkx and flows.second_opinion(measured.graph) != (solved.value, solved.halves, solved.relays):
        yield "networkx has another flow or side"


def wrongs(guest, measured, is_thorough):
    """What is wrong with a measured run."""
    return itertools.chain(cut_wrongs(guest, measured, is_thorough), flow_wrongs(measured))


def narrowing_wrongs(wide, narrow, table):
    """What is wrong with what a table makes of a run beside what the one before makes of it; each may be a refusal's
    text."""
    if isinstance(narrow, str):
        if not isinstance(wide, str):
            yield f"table {table} is refused, table {table - 1} is not"
    elif not isinstance(wide, str) and narrow.bits > wide.bits:
        yield f"table {table} lets more bits flow"
