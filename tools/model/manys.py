"""One cut for several runs: the union of what they pass, its maximum flow, and the cut."""
from cuts import Cut
from flows import solve
from guest import RealGuest
from measures import MeasuredRun, Refused, is_inner
from passings import Collapsed

MOST_VALUE = 1 << 20


def united_runs(first, second):
    """The masks of the visits of a point in two runs, one visit of each together, as runs (count, mask)."""
    joined, first, second = [], [list(run) for run in first], [list(run) for run in second]
    while first or second:
        count = min(runs[0][0] for runs in (first, second) if runs)
        mask = 0
        for runs in (first, second):
            if runs:
                mask |= runs[0][1]
                runs[0][0] -= count
                if not runs[0][0]:
                    del runs[0]
        if joined and joined[-1][1] == mask:
            joined[-1] = joined[-1][0] + count, mask
        else:
            joined.append((count, mask))
    return joined


class United(Collapsed):
    """The passings of several runs: for each point the union of its masks visit by visit, and all links."""

    def __init__(self, passings):
        super().__init__()
        for one in passings:
            self.links |= one.links
            for point, runs in one.runs.items():
                self.runs[point] = united_runs(self.runs.get(point, []), runs)


class Many:
    """Several runs that are measured together, with their maximum flow and its least minimum side; or `Refused`."""

    def __init__(self, image, public, secrets, regions, table, limit):
        self.secret_length = len(secrets[0])
        for index, secret in enumerate(secrets, 1):
            if len(secret) != self.secret_length:
                raise Refused(f"length {index} first {self.secret_length} got {len(secret)}")
        runs = [run_of(image, public, secret, regions, table, limit, index) for index, secret in enumerate(secrets, 1)]
        self.united = United([run.passings for run in runs])
        self.graph = self.united.graph()
        if self.graph.exceeds_limits():
            raise Refused("united-limit")
        self.solved = solve(self.graph)
        self.bits, self.skip = self.solved.value, self.solved.relays
        if self.bits > MOST_VALUE:
            raise Refused(f"budget-limit {self.bits}")

    def cut(self):
        """The cut of all runs: the points that the side splits, but those of instructions inside a skipped region."""
        points = {}
        for point in (self.graph.points[index] for index in self.solved.split):
            if not is_inner(point, self.skip):
                union = 0
                for _, mask in self.united.runs[point]:
                    union |= mask
                points[point] = self.united.runs[point], [(1, union)]
        return Cut(self.secret_length, self.bits, self.skip, points)


def run_of(image, public, secret, regions, table, limit, index):
    """A run that `measure` would measure."""
    try:
        run = MeasuredRun(RealGuest(image, public, secret, regions), table, limit)
        if run.passings.graph().exceeds_limits():
            raise Refused("graph-limit")
    except Refused as refusal:
        raise Refused(f"run {index} {refusal}") from None
    return run
