"""A measured run by the model, with what a report does not say: its output, how much it read of its inputs, and where
its secret bits became more than the bits that they were made of."""
from document import Commands, Section, Words
from guest import RealGuest
from labels import Labels
from measures import MeasuredRun
from passings import Passings
from run_facts import read
from running import reads_of
from tool import counted
from verdicts import USUAL_TURNS

MOST_TURNS, MOST_LINES, MOST_WIDTH = 200_000, 20, 90


class NotingPassings(Passings):
    """Passings that keep, for each point at which bits became more, how many there were before and behind it."""

    def __init__(self):
        super().__init__()
        self.growth = {}

    def add(self, point, mask, sources=(), kind=None):
        """Adds a passing."""
        before, behind = sum(part.bit_count() for part, _ in sources), mask.bit_count()
        if 0 < before < behind:
            sums = self.growth.get(point, (0, 0))
            self.growth[point] = sums[0] + before, sums[1] + behind
        return super().add(point, mask, sources, kind)


class NotedRun(MeasuredRun):
    """The run with such passings."""

    def labelled(self, table):
        """The labels at the start."""
        self.passings = NotingPassings()
        return Labels(table, self.passings)


def noted_of(facts, program):
    """The run of what is measured, or None where it is too long for the model."""
    inputs = facts.inputs
    if facts.numbers["turns"] > MOST_TURNS:
        return None
    guest = RealGuest(program.image, read(inputs.public), read(inputs.secret), inputs.regions())
    table, limit = int(inputs.option("--rules") or 1), int(inputs.option("--turns") or USUAL_TURNS)
    return NotedRun(guest, table, limit)


def output_lines(output):
    """The lines of an output, with what is no printable ASCII as C spells it, and a mark where there are more."""
    lines, shown = bytes(output).split(b"\n"), []
    for number, line in enumerate(lines):
        text = "".join(map(character, line)) + ("\\n" if number < len(lines) - 1 else "")
        if text:
            shown.append(text if len(text) <= MOST_WIDTH else f"{text[:MOST_WIDTH]}... ({counted(len(line), 'byte')})")
    more = len(shown) - MOST_LINES
    return shown[:MOST_LINES] + ([f"... and {counted(more, 'line')} more"] if more > 0 else [])


def character(byte):
    """A byte as C spells it in a string."""
    return "\\\\" if byte == 92 else chr(byte) if 32 <= byte < 127 else f"\\x{byte:02x}"


def output_section(run):
    """What the guest wrote and read."""
    if run is None:
        told = f"The run has more than {MOST_TURNS:,} turns; tools/run.py shows its output."
        return Section("The output", Words(told, "dim"))
    reads = [f"{taken:,} of {counted(length, 'byte')}" for taken, length in reads_of(run.guest)]
    words = f"It wrote {counted(len(run.guest.output), 'byte')} and exited with status {run.status}."
    read_words = f"It read {reads[0]} of the public input and {reads[1]} of the secret."
    lines = output_lines(run.guest.output)
    return Section("The output", Words(f"{words} {read_words}"), Commands(lines, "output") if lines else None)
