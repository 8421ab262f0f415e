"""Models of `taint`, `learn` and `measure-all` that are wrong in one thing each."""
from unittest.mock import patch

import learns
import manys
import taints
from answers import answer_to
from compare_learns import learn_trial
from compare_manys import many_trial
from compare_taints import taint_trial
from cuts import Cut, VisitMasks
from guest import Guest
from labels import Labels
from learns import NotingGuest
from manys import Many, United
from taints import ClearedLabels, Clearing, TaintedRun, Unclear

right_add, right_leave, right_turn = Clearing.add, ClearedLabels.leave, TaintedRun.make_turn
right_mask_at, right_walk, right_use = Cut.mask_at, TaintedRun.make_walk, Labels.use


def blind_to(slot):
    """A model that does not look at a slot that decides."""
    return lambda self, point, mask, sources=(), kind=None: right_add(
        self, point, mask, sources, None if point[2] == slot else kind)


def add_uncleared(self, point, mask, sources=(), kind=None):
    """What passes is not cleared."""
    left = right_add(self, point, mask, sources, kind)
    return (mask, point) if mask else left


def add_last(self, point, mask, sources=(), kind=None):
    """The last that decides is told."""
    kept, self.left = self.left, None
    left = right_add(self, point, mask, sources, kind)
    self.left = self.left or kept
    return left


def use_uncleared(self, visit, number, kind=None):
    """An operand goes on with the mask of its register."""
    right_use(self, visit, number, kind)
    return self.registers[number]


def mask_before(self, point, visit):
    """The mask of the visit before."""
    return right_mask_at(self, point, max(visit - 1, 1))


class MasksBefore(VisitMasks):
    """The masks of the visits before."""

    def mask_of(self, visit):
        """The mask of the visit before the next one."""
        with patch.object(Cut, "mask_at", mask_before):
            return super().mask_of(visit)


def clear_by_visit_before(self, cut):
    """Masks are cleared by the visit before."""
    self.masks, self.left = MasksBefore(cut), None


def out_clean(self, visit, label):
    """An output of a skipped region has its own mask."""
    return self.passings.add(visit[:3], label[0])


def out_whole(self, visit, label):
    """Every output of a region has every bit."""
    return self.passings.add(visit[:3], taints.slot_width(visit[2]))


def leave_without_keep(self, region, starts, visits):
    """Kept registers keep the masks of the region."""
    for number in region.keep:
        self.at_entry[number] = self.registers[number]
    right_leave(self, region, starts, visits)


def turn_left_first(self):
    """What is left is told before the budget."""
    budget, self.budget = self.budget, 1 << 40
    right_turn(self)
    self.budget = budget
    if len(self.bits) > budget:
        raise Unclear(f"budget {budget} needed {len(self.bits)}")


def turn_forgetting(self):
    """What is left in a turn is told with what is left in a later one."""
    told = self.clearing.left
    self.clearing.left = None
    try:
        right_turn(self)
    except Unclear as why:
        if not str(why).startswith("left") or told or self.turns % 2:
            raise


def turn_counting_hidden(self):
    """Turns inside a skipped region let bits cross too."""
    is_hidden = self.is_hidden(self.guest.kind())
    right_turn(self)
    if is_hidden:
        for visit in self.hidden:
            self.cross(visit)


def walk_keeping(self):
    """Keeps the visits."""
    self.hidden = right_walk(self)
    return self.hidden


def write_changes(self, number, value):
    """Writes a register, and notes it where it changes."""
    if number:
        if self.entered and self.registers[number] != value:
            self.registers_of[self.entered.number].add(number)
        self.registers[number] = value


def write_word_changes(self, address, value, width):
    """Writes bytes, and notes those that change."""
    if not self.is_inside(address, width):
        return Guest.write_word(self, address, value, width)
    for index in range(width):
        byte = value >> 8 * index & 255
        if self.entered and self.byte(address + index) != byte:
            self.bytes_of[self.entered.number].add(address + index)
        self.memory[address + index] = byte
    return self.following()


def settle_last(self, region):
    """The last leave alone says what has changed."""
    pairs = enumerate(zip(self.at_entry, self.registers))
    self.changed_of[region.number] = {number for number, (before, after) in pairs if before != after}


def single_ranges(addresses):
    """Each byte is a range."""
    return [(None, address, 1) for address in sorted(addresses)]


def declare_all(self, region):
    """Every register is declared."""
    self.registers_of[region.number].update(range(1, 32))
    right_settle(self, region)


right_settle, right_united, right_many_cut = NotingGuest.settle_kept, manys.united_runs, Many.cut


def joined_behind(first, second):
    """The masks of the second run stand behind those of the first."""
    joined = [tuple(run) for run in first]
    for count, mask in second:
        if joined and joined[-1][1] == mask:
            joined[-1] = joined[-1][0] + count, mask
        else:
            joined.append((count, mask))
    return joined


def shortest(first, second):
    """The masks of visits that only one run makes are left out."""
    if not first:
        return [tuple(run) for run in second]
    joined, left = [], min(sum(count for count, _ in runs) for runs in (first, second))
    for count, mask in right_united(first, second):
        if left > 0:
            joined.append((min(count, left), mask))
            left -= count
    return joined


def first_alone(self, passings):
    """The first run alone."""
    self.runs, self.links = {}, set(passings[0].links)
    for point, runs in passings[0].runs.items():
        self.runs[point] = [tuple(run) for run in runs]


def cut_with_last(self):
    """The rest is the last mask."""
    cut = right_many_cut(self)
    cut.points = {point: (runs, [(1, runs[-1][1])]) for point, (runs, _) in cut.points.items()}
    return cut


TAINT = [
    *((f"{slot} is not looked at", Clearing, {"add": blind_to(slot)}) for slot in (
        "ad", "de", "nr", "a0", "a1", "a2", "ou", "st")),
    ("what crosses is not cleared", Clearing, {"add": add_uncleared}),
    ("the last that decides in a turn is told", Clearing, {"add": add_last}),
    ("operands go on with the masks of their registers", Labels, {"use": use_uncleared}),
    ("masks are cleared by the visit before", Clearing, {"__init__": clear_by_visit_before}),
    ("outputs of a skipped region have their own masks", ClearedLabels, {"put_out": out_clean}),
    ("outputs of every region have all bits", ClearedLabels, {"put_out": out_whole}),
    ("kept registers keep the masks of the region", ClearedLabels, {"leave": leave_without_keep}),
    ("what is left is told before the budget", TaintedRun, {"make_turn": turn_left_first}),
    ("what is left is told in every other turn", TaintedRun, {"make_turn": turn_forgetting}),
    ("bits cross inside a skipped region", TaintedRun, {
        "make_turn": turn_counting_hidden, "make_walk": walk_keeping}),
    ("masks change inside a skipped region", TaintedRun, {"is_hidden": lambda self, kind: False}),
    ("code is not looked at", TaintedRun, {"look_at_code": lambda self: None}),
    ("bases are not looked at", TaintedRun, {"look_at_bases": lambda self, region: None}),
]
LEARN = [
    ("a write of the same value to a register is passed over", NotingGuest, {
        "write_register": write_changes}),
    ("a write of the same value to a byte is passed over", NotingGuest, {
        "write_word": write_word_changes}),
    ("the last leave alone says what is kept", NotingGuest, {"settle_kept": settle_last}),
    ("ranges that touch are not joined", learns, {"ranges_of": single_ranges}),
    ("every register is declared", NotingGuest, {"settle_kept": declare_all}),
    ("a call inside a region is passed over", NotingGuest, {"declare_call": lambda self: None}),
]
MANY = [
    ("the first run alone counts", United, {"__init__": first_alone}),
    ("masks of the second run stand behind the first", manys, {"united_runs": joined_behind}),
    ("masks of visits of one run are left out", manys, {"united_runs": shortest}),
    ("the rest is the last mask", Many, {"cut": cut_with_last}),
]


def taint_trials(seeds):
    """The files and the command lines of trials of `taint`."""
    return [(files, ["taint", *words, *rules]) for files, words, rules in map(taint_trial, seeds)]


def learn_trials(seeds):
    """The files and the command lines of trials of `learn`."""
    return [(files, ["learn", *words]) for files, words in map(learn_trial, seeds)]


def many_trials(seeds):
    """The files and the command lines of trials of `measure-all`."""
    return [(files, ["measure-all", *words]) for files, words in map(many_trial, seeds)]


def answer(trial):
    """The status and the text of a trial."""
    return answer_to(*trial)
