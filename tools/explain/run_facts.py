"""What a program says of a measured run: its report, its cut and its certificate."""
import json

from certificates import Certificate
from cuts import length_of, read_cut, read_regions
from refusals import cut_fault, regions_fault


class Unusable(Exception):
    """A file that cannot be used; the text says which, why, and what says more."""


class NoMeasure(Exception):
    """The run is not measured; the text is the program's."""


class Inputs:
    """The words of a run: program, public input and secret, and its options as words."""

    def __init__(self, program, public, secret, options=()):
        self.program, self.public, self.secret, self.options = program, public, secret, list(options)

    def words(self, command):
        """The words of a command on this run."""
        return [command, self.program, self.public, self.secret, *self.options]

    def option(self, name):
        """The value of an option, or None."""
        return self.options[self.options.index(name) + 1] if name in self.options else None

    def without(self, *names):
        """The options but some."""
        kept = []
        for name, value in zip(self.options[::2], self.options[1::2]):
            kept += [] if name in names else [name, value]
        return kept

    def regions(self):
        """The regions of the run's region file."""
        return regions_of(self.option("--regions"))


def read(name):
    """The bytes of a file."""
    with open(name, "rb") as file:
        return file.read()


def require(name, form, fault):
    """Raises what is said of a file of a form that has a fault."""
    if fault:
        raise Unusable(f"{name}: refused 3 {form} {fault}; tools/lint.py shows it")


def regions_of(name):
    """The regions of a region file, none where no file is named."""
    file = read(name) if name else None
    require(name, "regions", name and regions_fault(file))
    return read_regions(file) if name else []


def cut_of(name):
    """The cut of a file."""
    return cut_in(name, read(name))


def cut_in(name, text):
    """The cut of the text of a file."""
    require(name, "cut", cut_fault(text))
    return read_cut(text)


class CutPoint:
    """A point of the cut: its region, address and slot, the bits that passed there, its visits and its masks."""

    def __init__(self, point, bits, runs):
        self.point, self.bits, self.visits = point, bits, length_of(runs)
        self.region, self.address, self.slot = point
        self.mask = 0
        for _, mask in runs:
            self.mask |= mask


class RunFacts:
    """A measured run: `numbers` are those of `report --json`."""

    def __init__(self, program, inputs):
        self.inputs = inputs
        self.numbers = json.loads(program.text(inputs.words("report") + ["--json"], NoMeasure))
        short = Inputs(inputs.program, inputs.public, inputs.secret, inputs.without("--cut"))
        self.cut_text = program.text(short.words("measure"), NoMeasure)
        self.certificate = Certificate(program.text(short.words("graph"), NoMeasure))
        self.cut = read_cut(self.cut_text.encode())
        bits = {(item["region"], int(item["address"], 16), item["slot"]): item["bits"] for item in self.numbers["cut"]}
        self.cut_points = [CutPoint(point, bits[point], runs) for point, (runs, _) in self.cut.points.items()]
        self.graph = self.certificate.graph

    def flows(self):
        """The links that something flows over, as (source, target, flow)."""
        return [(source, target, flow) for (source, target), flow in self.certificate.links if flow]

    def passed(self):
        """The bits that passed each point of the graph."""
        return {point: capacity for point, capacity, _, _ in self.certificate.points}

    def halves(self, place):
        """Whether the two halves of a point are on the secret's side of the cut."""
        return self.certificate.points[place][3]
