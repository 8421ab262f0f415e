"""Where and why `check` rejects a secret, by the model: the two runs in lockstep, with what passes in the last turn."""
from cuts import VisitMasks, slot_width
from guest import GuestExit, GuestFault, RealGuest, RegionBreak, ReplayStop
from judged import JudgedSecret, listed
from measures import MeasuredRun, Refused
from verdicts import MOST_BUDGET, RealRun, Replay, Turn, crossing, judge, mark_text, walk

MOST_POINTS = 40


class TracedRun(RealRun):
    """A real run that keeps the turn in which it is stopped, and where each turn begins."""

    def make_turn(self):
        """Makes one turn; that of a stop is kept as `stopped`."""
        guest = self.guest
        turn = Turn(guest.kind(), guest.entered)
        turn.begin = guest.pc
        try:
            walk(guest.turn(), lambda visit: turn.visits.append(visit) or visit[3])
        except GuestExit as exited:
            turn.is_exited = True
            self.ending = ("exited", exited.status)
        except (GuestFault, RegionBreak) as stop:
            self.ending = ("fault" if isinstance(stop, GuestFault) else "break", str(stop))
            self.stopped = turn
            return
        turn.region = guest.entered or turn.region
        turn.pc, turn.output_length = guest.pc, len(guest.output)
        self.turns.append(turn)


class TracedReplay(Replay):
    """A replay that keeps what passed in its last turn, with the values that went on."""

    def make_turn(self):
        """Makes one turn."""
        self.passed = []
        super().make_turn()

    def patched(self, visit):
        """The value that goes on."""
        value = super().patched(visit)
        self.passed.append((visit[:3], value))
        return value


class Passed:
    """One value of the last turn: its point, what it was in the real run, what went on in the replay, and the mask of
    the bits that the cut lets cross."""

    def __init__(self, point, real, replayed, mask):
        self.point, self.real, self.replayed, self.mask = point, real, replayed, mask

    def differs(self):
        """Whether the two runs have different values."""
        return self.real is not None and self.replayed is not None and self.real != self.replayed


class Lockstep:
    """The two runs up to the turn at which the verdict falls."""

    def __init__(self, image, public, secret, regions, cut, budget, limit):
        self.real = TracedRun(RealGuest(image, public, secret, regions), limit)
        self.bits, self.by_point, self.number, self.passed, self.begin = [], {}, 0, [], None
        self.replay = TracedReplay(image, public, regions, cut, self.bits)
        masks, self.kind = VisitMasks(cut), "step"
        for kind, turn in self.real.common_turns(set(cut.skip)):
            self.kind, self.number, self.begin = kind, self.number + 1, self.replay.guest.pc
            used = self.cross(turn, masks)
            stopped = self.turn_of_replay(len(self.bits) > budget)
            self.passed = list(self.pair(turn, used))
            if stopped or len(self.bits) > budget or self.is_parted(turn):
                self.turn = turn
                return
        self.turn, self.passed = getattr(self.real, "stopped", None), []
        if self.turn:
            self.number, self.begin, self.kind = self.number + 1, self.turn.begin, self.turn.kind
            self.passed = [Passed(visit[:3], visit[3], None, 0) for visit in self.turn.visits]
        else:
            self.begin, self.kind = self.real.turns[-1].pc if self.real.turns else image.entry, "step"

    def cross(self, turn, masks):
        """Lets the bits of a turn cross; the masks of its visits."""
        used = []
        for visit in turn.visits:
            mask = masks.mask_of(visit)
            crossed = crossing(visit, mask)
            self.bits += crossed
            used.append(mask)
            if crossed:
                self.by_point[visit[:3]] = self.by_point.get(visit[:3], 0) + len(crossed)
        return used

    def turn_of_replay(self, is_over):
        """Makes the turn of the replay; whether it is stopped."""
        if is_over:
            self.replay.passed = []
            return False
        try:
            self.replay.make_turn()
        except ReplayStop:
            return True
        return False

    def pair(self, turn, used):
        """The values of a turn on both sides."""
        replayed = self.replay.passed
        for index in range(max(len(turn.visits), len(replayed))):
            real = turn.visits[index] if index < len(turn.visits) else None
            other = replayed[index] if index < len(replayed) else None
            mask = used[index] if real else 0
            yield Passed(real[:3] if real else other[0], real and real[3], other and other[1], mask)

    def is_parted(self, turn):
        """Whether the two runs differ after a turn, or have ended."""
        mark = turn.pc, len(self.bits), turn.output_length, turn.is_exited
        is_same = self.real.guest.output[: turn.output_length] == self.replay.guest.output
        return turn.is_exited or mark != self.replay.mark() or not is_same

    def busiest(self):
        """The addresses at which most turns of the real run begin, each with their number."""
        counts = {}
        for turn in self.real.turns:
            counts[turn.begin] = counts.get(turn.begin, 0) + 1
        return sorted(counts.items(), key=lambda item: -item[1])

    def marks(self):
        """Where both runs stand, or nothing where one has been stopped."""
        if not self.turn or not hasattr(self.turn, "pc") or self.turn is getattr(self.real, "stopped", None):
            return None
        mark = self.turn.pc, len(self.bits), self.turn.output_length, self.turn.is_exited
        return mark_text(mark), mark_text(self.replay.mark())


class LabelledRun(MeasuredRun):
    """A run with labels that keeps its passings where it is refused."""

    def __init__(self, guest, limit):
        try:
            super().__init__(guest, 1, limit)
        except Refused:
            pass


class Rejection(JudgedSecret):
    """A secret that a check is asked about: the program's line, the model's line, and what the model saw."""

    def __init__(self, *named):
        super().__init__(*named)
        self.line = self.line_of("check", self.inputs.options)
        judged = self.judged(self.cut, self.budget)
        self.is_accepted = judged.word == "accepted"
        self.reason, self.model_line = judged.text, f"{judged.word} 1 {judged.text}"
        self.lockstep = None if self.reason.startswith("secret-length") else Lockstep(*self.runs(self.cut, self.budget))
        self.covers, self.whole = [], None
        if not self.is_accepted and self.lockstep:
            self.find_cover()

    def runs(self, cut, budget):
        """What both runs are made of."""
        return *self.run_inputs(), cut, budget, self.limit

    def judged(self, cut, budget):
        """The model's judgement of the secret."""
        return judge(*self.runs(cut, budget))

    def masks_of_labels(self):
        """The mask of the secret bits that passed each point of the real run."""
        run, masks = LabelledRun(self.guest(), self.limit), {}
        for point, runs in run.passings.runs.items():
            for _, mask in runs:
                masks[point] = masks.get(point, 0) | mask
        return masks

    def find_cover(self):
        """Adds, as long as the two runs part, the point of the last turn at which the fewest bits differ."""
        masks, cut = self.masks_of_labels(), self.widened()
        lockstep = Lockstep(*self.runs(cut, MOST_BUDGET))
        while len(self.covers) < MOST_POINTS:
            point, mask = self.cover_of(lockstep, masks, cut)
            if point is None:
                break
            mask |= listed(point, cut)
            cut.points[point] = [], [(1, mask)]
            self.covers.append((point, mask))
            lockstep = Lockstep(*self.runs(cut, MOST_BUDGET))
        self.wider, self.whole = cut, self.judged(cut, MOST_BUDGET)

    @staticmethod
    def cover_of(lockstep, masks, cut):
        """The point that covers a difference of the last turn with the fewest bits, and the mask of its secret bits."""
        found = []
        for passed in lockstep.passed:
            if passed.differs() and passed.point[2] not in ("u1", "u2"):
                difference = passed.real ^ passed.replayed
                mask = (masks.get(passed.point, 0) | difference) & slot_width(passed.point[2])
                found.append((mask.bit_count(), passed.point, mask))
        return min(found, key=lambda item: item[0])[1:] if found else (None, 0)
