"""The check with one machine: a real run with the masks of what may differ in another run that crosses with the same
bits. What crosses at a cut is cleared, and what decides must be clear."""
from cuts import VisitMasks, slot_width
from guest import GuestFault, RealGuest, RegionBreak, shown
from labels import Labels
from measures import MeasuredRun
from passings import CLEAN, IMPLICIT
from verdicts import crossing, packed_text


class Unclear(Exception):
    """A secret is not clean; the text says why. `needed` bits had crossed by then."""

    def __init__(self, text, needed=0):
        super().__init__(text)
        self.needed = needed


class Clearing:
    """What takes passings in the place of a graph: of each mask the bits that cross are cleared. It keeps the first
    that decides and is not 0 then."""

    def __init__(self, cut):
        self.masks, self.left = VisitMasks(cut), None

    def add(self, point, mask, sources=(), kind=None):
        """Passes a mask at the next visit of a point; the label of what has passed."""
        mask &= ~self.masks.mask_of(point)
        if kind == IMPLICIT and mask and self.left is None:
            self.left = point, mask
        return (mask, point) if mask else CLEAN


class ClearedLabels(Labels):
    """The masks of a run. An output of a region has its own mask, and every bit of its slot where that is skipped."""

    def __init__(self, table, clearing, skipped):
        super().__init__(table, clearing)
        self.skipped = skipped

    def put_out(self, visit, label):
        """Passes an output of a region."""
        mask = slot_width(visit[2]) if visit[0] in self.skipped else label[0]
        return self.passings.add(visit[:3], mask)


class TaintedRun(MeasuredRun):
    """A real run by its masks, up to its exit, or `Unclear`; it keeps the bits that cross and where they did."""

    refusal = Unclear

    def __init__(self, guest, cut, table, budget, limit):
        self.cut, self.skipped, self.budget = cut, set(cut.skip), budget
        self.crossing_masks, self.bits, self.slots = VisitMasks(cut), [], set()
        self.clearing = self.made_clearing()
        super().__init__(guest, table, limit)

    def made_clearing(self):
        """What takes the passings."""
        return Clearing(self.cut)

    def labelled(self, table):
        """The masks, all clear."""
        return ClearedLabels(table, self.clearing, self.skipped)

    def is_hidden(self, kind):
        """Whether the next turn is inside a skipped region: it changes no mask and lets nothing cross."""
        return kind == "step" and self.guest.entered is not None and self.guest.entered.number in self.skipped

    def make_turn(self):
        """Makes one turn, and looks at what has crossed and at what is left."""
        is_hidden = self.is_hidden(self.guest.kind())
        visits = self.make_walk() if is_hidden else self.make_labelled_turn()
        for visit in [] if is_hidden else visits:
            self.cross(visit)
        if len(self.bits) > self.budget:
            raise Unclear(f"budget {self.budget} needed {len(self.bits)}", len(self.bits))
        if self.clearing.left:
            (region, address, slot), mask = self.clearing.left
            raise Unclear(f"left {region} {shown(address)} {slot} mask {shown(mask)}", len(self.bits))

    def cross(self, visit):
        """Lets the bits of a visit cross."""
        crossed = crossing(visit, self.crossing_masks.mask_of(visit))
        self.bits += crossed
        self.slots.update([visit[2]] if crossed else [])

    def make_walk(self):
        """Lets the guest make its turn; its visits."""
        visits = []
        try:
            self.walk(visits)
        except GuestFault as fault:
            raise Unclear(f"guest {fault}") from None
        except RegionBreak as broken:
            raise Unclear(str(broken)) from None
        return visits


class Finding:
    """The line of a secret without its number, whether it is clean, the slots and the bits that crossed, and how many
    had by a reason that counts them."""

    def __init__(self, is_clean, text, slots=(), bits=(), needed=0):
        self.word, self.text, self.slots, self.bits = "clean" if is_clean else "unclear", text, slots, bits
        self.needed = needed


def find(image, public, secret, regions, cut, table, budget, limit):
    """Whether a secret is clean, and else the first reason why it is not."""
    if len(secret) != cut.secret_length:
        return Finding(False, f"secret-length cut {cut.secret_length} got {len(secret)}")
    try:
        run = TaintedRun(RealGuest(image, public, secret, regions), cut, table, budget, limit)
    except Unclear as why:
        return Finding(False, str(why), needed=why.needed)
    ending = f"output {len(run.guest.output)} status {run.status}"
    return Finding(True, f"bits {len(run.bits)} crossing {packed_text(run.bits)} {ending}", run.slots, run.bits)


def taint_answer(findings, budget):
    """The status and the text of a check with one machine."""
    clean = sum(finding.word == "clean" for finding in findings)
    lines = [f"{finding.word} {number} {finding.text}" for number, finding in enumerate(findings, 1)]
    lines.append(f"checked {len(findings)} clean {clean} budget {budget}")
    return int(clean < len(findings)), "\n".join(lines) + "\n"
