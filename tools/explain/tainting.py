"""What `taint` finds of a secret, by the model: the turn at which it is found, the masks there, and what would clear
them."""
from judged import JudgedSecret, listed
from taints import Clearing, TaintedRun, Unclear, find
from verdicts import MOST_BUDGET


class NotingClearing(Clearing):
    """A clearing that keeps what passes in a turn, and for each point the bits that were left there. A lenient one goes
    on past what decides, and keeps the bits of it."""

    def __init__(self, cut, is_lenient):
        super().__init__(cut)
        self.is_lenient, self.passed, self.unions, self.decided = is_lenient, [], {}, {}

    def add(self, point, mask, sources=(), kind=None):
        """Passes a mask at the next visit of a point."""
        left = super().add(point, mask, sources, kind)
        self.passed.append((point, mask, left[0]))
        if left[0]:
            self.unions[point] = self.unions.get(point, 0) | left[0]
        if self.is_lenient and self.left:
            self.decided[self.left[0]] = self.decided.get(self.left[0], 0) | self.left[1]
            self.left = None
        return left


class TracedTaint(TaintedRun):
    """A run by its masks that keeps its last turn, and why it is not clean, where it is not."""

    def __init__(self, guest, cut, table, budget, limit, is_lenient=False):
        self.why, self.is_lenient, self.made, self.by_point = None, is_lenient, 0, {}
        self.begin, self.kind, self.visits = guest.pc, guest.kind(), []
        try:
            super().__init__(guest, cut, table, budget, limit)
        except Unclear as why:
            self.why = str(why)

    def made_clearing(self):
        """What takes the passings."""
        return NotingClearing(self.cut, self.is_lenient)

    def make_turn(self):
        """Makes one turn."""
        self.begin, self.kind, self.made = self.guest.pc, self.guest.kind(), self.made + 1
        self.clearing.passed, self.visits = [], []
        super().make_turn()

    def make_walk(self):
        """Lets the guest make its turn; its visits."""
        self.visits = super().make_walk()
        return self.visits

    def cross(self, visit):
        """Lets the bits of a visit cross."""
        before = len(self.bits)
        super().cross(visit)
        if len(self.bits) > before:
            self.by_point[visit[:3]] = self.by_point.get(visit[:3], 0) + len(self.bits) - before

    def values(self):
        """What passed in the last turn: (point, value, mask, mask that is left)."""
        pairs = zip(self.visits, self.clearing.passed)
        return [(point, visit[3], mask, left) for visit, (point, mask, left) in pairs]


class Tainting(JudgedSecret):
    """A secret that `taint` is asked about: the program's line, the model's line, and what the model saw."""

    def __init__(self, *named):
        super().__init__(*named)
        self.line = self.line_of("taint", self.inputs.options)
        self.check_line = self.line_of("check", self.inputs.without("--rules"))
        found = self.found(self.cut, self.budget)
        self.is_clean, self.reason, self.model_line = found.word == "clean", found.text, f"{found.word} 1 {found.text}"
        self.run, self.lines, self.wider = None, [], None
        if not self.reason.startswith("secret-length"):
            self.run = self.traced(self.cut, self.budget, False)
            self.find_lines()

    def found(self, cut, budget):
        """What the model finds."""
        return find(*self.run_inputs(), cut, self.table, budget, self.limit)

    def traced(self, cut, budget, is_lenient):
        """The run by its masks."""
        return TracedTaint(self.guest(), cut, self.table, budget, self.limit, is_lenient)

    def find_lines(self):
        """Finds the points that would clear the secret, each with the mask of the bits that are left there. Code and
        base registers are cleared where their bits come from."""
        cut, self.lines = self.widened(), self.first_lines(self.run)
        for _ in range(len(self.program.addresses())):
            lenient = self.traced(cut, MOST_BUDGET, True)
            more = list(lenient.clearing.decided.items()) or self.first_lines(lenient)
            for point, mask in more:
                cut.points[point] = [], [(1, mask | listed(point, cut))]
            if not more or lenient.why is None:
                break
        self.wider, self.whole = cut, self.found(cut, MOST_BUDGET)

    @staticmethod
    def first_lines(run):
        """The point at which a run's first reason would be cleared, with its mask."""
        words = (run.why or "").split()
        if words[:1] == ["left"]:
            return [((int(words[1]), int(words[2], 16), words[3]), run.clearing.unions[run.clearing.left[0]])]
        label = (0, None)
        if words[:1] == ["secret-code"]:
            pc = int(words[1], 16)
            label = next(label for label in map(run.labels.byte, range(pc, pc + 4)) if label[0])
        elif words[2:3] == ["base"]:
            label = run.labels.registers[int(words[3][1:])]
        return [(label[1], run.clearing.unions[label[1]])] if label[0] else []
