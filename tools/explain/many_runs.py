"""Several runs under one cut: what crosses at each point of it in each run."""
from cuts import VisitMasks, read_cut
from guest import RealGuest
from run_facts import NoMeasure, read
from running import reads_of
from tool import text_file
from verdicts import USUAL_TURNS, RealRun, crossing


class RunUnderCut:
    """A run on one secret: the bits that cross at each point of the cut, and the line of `check`."""

    def __init__(self, secret, bits, line):
        self.secret, self.bits, self.line = secret, bits, line

    def total(self):
        """How many bits cross."""
        return sum(self.bits.values())


class ManyRuns:
    """The one cut of several secrets, and each run under it."""

    def __init__(self, asked, inputs, secrets, program):
        self.inputs, self.secrets, self.program = inputs, secrets, program
        words = [inputs.program, inputs.public, *secrets, *inputs.options]
        self.cut_text = asked.text(["measure-all", *words], NoMeasure)
        self.cut = read_cut(self.cut_text.encode())
        self.capacities = {point: sum(count * mask.bit_count() for count, mask in runs)
                           for point, (runs, _) in self.cut.points.items()}
        self.reads = []
        self.runs = [RunUnderCut(secret, self.crossing_of(secret), line)
                     for secret, line in zip(secrets, self.lines(asked))]

    def lines(self, asked):
        """What `check` says of each secret under the cut, without its number."""
        with text_file(self.cut_text) as name:
            words = [self.inputs.program, self.inputs.public, name, str(self.cut.bits), *self.secrets]
            _, text = asked.answer(["check", *words, *self.inputs.without("--rules", "--cut")])
        return text.split("\n")[: len(self.secrets)]

    def crossing_of(self, secret):
        """The bits that cross at each point in the run on a secret."""
        limit = int(self.inputs.option("--turns") or USUAL_TURNS)
        guest = RealGuest(self.program.image, read(self.inputs.public), read(secret), self.inputs.regions())
        masks, bits = VisitMasks(self.cut), dict.fromkeys(self.cut.points, 0)
        for _, turn in RealRun(guest, limit).common_turns(set(self.cut.skip)):
            for visit in turn.visits:
                crossed = crossing(visit, masks.mask_of(visit))
                if crossed:
                    bits[visit[:3]] += len(crossed)
        self.reads.append((*reads_of(guest)[1], secret))
        return bits
