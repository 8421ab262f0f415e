"""Models of `measure` and `graph` that are wrong in one thing each."""
import cuts
import flows
import labels
import rules
from answers import Ended, measured_of
from certificates import without_flows
from guest import RegionBreak
from labels import LABELLED, Labels
from measure_trials import measure_trial
from measures import Measured, MeasuredRun, Refused
from passings import CLEAN, IMPLICIT, OUT, POINT, SINK, Passings
from rules import CLASSES, TABLE_1, TABLE_2

MOST_TURNS, MOST_FILE = 5000, 65_536
# what is replaced, for the wrong methods that go on with it
right_add, right_leave, right_call, right_cut = Passings.add, Labels.leave, Labels.call, Measured.cut
right_look, right_look_at_code = MeasuredRun.look_at_bases, MeasuredRun.look_at_code


def add_without(left_out):
    """Passings of which some kinds are not told."""
    return lambda self, point, mask, sources=(), kind=None: right_add(
        self, point, mask, sources, None if left_out(point, kind) else kind
    )


def add_to_sink(self, point, mask, sources=(), kind=None):
    """What is betrayed inside a region goes to the sink."""
    label = right_add(self, point, mask, sources, None if kind == IMPLICIT else kind)
    if mask and kind == IMPLICIT:
        self.links.add(((POINT, point), SINK))
    return label


def add_first_link(self, point, mask, sources=(), kind=None):
    """Only the first label is linked."""
    return right_add(self, point, mask, list(sources)[:1], kind)


def add_nothing_clean(self, point, mask, sources=(), kind=None):
    """Passings of no secret bit are not counted as visits."""
    return right_add(self, point, mask, sources, kind) if mask else CLEAN


def last_capacity(self, point):
    """The capacity of the last visit."""
    return self.runs[point][-1][1].bit_count()


def out_as_it_is(self, visit, label):
    """An output of a region has only the mask that it had."""
    return self.passings.add(visit[:3], label[0], [label], OUT)


def leave_without_keep(self, region, starts, visits):
    """Kept registers keep the labels of the region."""
    self.at_entry = list(self.registers)
    right_leave(self, region, starts, visits)


def store_lowest(self, instruction, first_visit, second_visit, address_visit):
    """Each stored byte has the lowest byte of the mask."""
    first, second = self.use(first_visit, instruction.first), self.use(second_visit, instruction.second)
    self.address(instruction, address_visit, first, first_visit[3])
    for index in range(labels.WIDTHS[instruction.name]):
        self.set_byte(address_visit[3] + index, (second[0] & 255, second[1]))


def store_with_address_first(self, instruction, first_visit, second_visit, address_visit):
    """A store that is labelled before its address is looked at, by its value's register alone."""
    label = self.registers[instruction.second]
    self.use(first_visit, instruction.first)
    self.use(second_visit, instruction.second)
    self.passings.add(address_visit[:3], self.registers[instruction.first][0], (), IMPLICIT)
    for index in range(labels.WIDTHS[instruction.name]):
        self.set_byte(address_visit[3] + index, (label[0] >> 8 * index & 255, label[1]))


def call_with_label(self, visits, answer):
    """The answer of a call has the label that its register had."""
    label = self.registers[10]
    right_call(self, visits, answer)
    self.registers[10] = label


def betray_whole(self, visit, label):
    """The exit status has all bits of its register."""
    self.passings.add(visit[:3], label[0], [label], IMPLICIT)


def look_at_first_byte(self):
    """Only the first byte of an instruction must not be secret."""
    if self.labels.byte(self.guest.pc)[0]:
        right_look_at_code(self)


def look_at_bases_late(self, region):
    """A range outside comes before a secret base."""
    try:
        self.guest.starts_of(region)
    except RegionBreak as broken:
        raise Refused(str(broken)) from None
    right_look(self, region)


def set_any_register(self, number, label):
    """x0 has a label too."""
    self.registers[number] = label


def cut_with_last(self):
    """The rest is the last mask."""
    cut = right_cut(self)
    cut.points = {point: (runs, [(1, runs[-1][1])]) for point, (runs, _) in cut.points.items()}
    return cut


def greatest_side(self):
    """The side is the greatest one."""
    levels = self.levels()
    while levels[flows.END] is not None:
        self.add_walks(levels)
        levels = self.levels()
    reaching, stack = {flows.END}, [flows.END]
    while stack:
        for edge in self.edges[stack.pop()]:
            tail = self.heads[edge]
            if self.open[edge ^ 1] and tail not in reaching:
                reaching.add(tail)
                stack.append(tail)
    return flows.Solved(self.graph, self.open[1::2], [node not in reaching for node in range(len(self.edges))])


def folded_once(runs, rest):
    """A pattern need not be there twice."""
    masks = [mask for count, mask in runs for _ in range(count)]
    for period in range(1, min(64, len(masks)) + 1):
        if masks[period:] == masks[:-period]:
            return [], cuts.runs_of(masks[:period])
    return runs, rest


def table_of(name):
    """The table whose rule of this name is replaced: table 2 shares what it does not replace."""
    return TABLE_2 if TABLE_2[name] is TABLE_1[name] else TABLE_1


def union(v1, m1, v2, m2):
    """The secret bits of both."""
    return m1 | m2


def moved(v1, m1, v2, m2):
    """The secret bits of the first, moved as if the number of places were sure."""
    return m1 << (v2 & 31) & rules.ALL


WRONG = [
    ("decisions are not betrayed", Passings, {"add": add_without(lambda point, kind: point[2] == "de")}),
    ("addresses are not betrayed", Passings, {"add": add_without(lambda point, kind: point[2] == "ad")}),
    ("numbers of calls are not betrayed", Passings, {"add": add_without(lambda point, kind: point[2] == "nr")}),
    ("arguments of calls are not betrayed", Passings, {"add": add_without(
        lambda point, kind: point[2][0] == "a" and point[2] != "ad")}),
    ("outputs of regions have no link from them", Passings, {"add": add_without(lambda point, kind: kind == OUT)}),
    ("regions betray to the sink", Passings, {"add": add_to_sink}),
    ("only the first label is linked", Passings, {"add": add_first_link}),
    ("visits of no secret bit are not counted", Passings, {"add": add_nothing_clean}),
    ("capacities are those of the last visit", Passings, {"capacity": last_capacity}),
    ("outputs of regions have their own masks", Labels, {"put_out": out_as_it_is}),
    ("kept registers keep the labels of the region", Labels, {"leave": leave_without_keep}),
    ("stored bytes have the lowest mask", LABELLED, {"store": store_lowest}),
    ("the address of a store has no rule", LABELLED, {"store": store_with_address_first}),
    ("answers of calls have labels", Labels, {"call": call_with_label}),
    ("the status has all bits", Labels, {"betray": betray_whole}),
    ("x0 has a label", Labels, {"set_register": set_any_register}),
    ("LUI, AUIPC and JAL leave the label", LABELLED, {"upper": Labels.fence, "jump": Labels.fence}),
    ("loads extend with zeros", labels, {"loaded_mask": lambda _, masks: sum(
        mask << 8 * index for index, mask in enumerate(masks))}),
    ("only the first byte of code is looked at", MeasuredRun, {"look_at_code": look_at_first_byte}),
    ("bases are looked at behind ranges", MeasuredRun, {"look_at_bases": look_at_bases_late}),
    ("the rest is the last mask", Measured, {"cut": cut_with_last}),
    ("the side is the greatest", flows.Network, {"solve": greatest_side}),
    ("patterns need not repeat", cuts, {"folded": folded_once}),
    ("ADD carries nothing", table_of("add"), {"add": union}),
    ("SUB carries nothing", table_of("sub"), {"sub": union}),
    ("MUL carries nothing", table_of("mul"), {"mul": union}),
    ("AND knows no zeros", table_of("and"), {"and": union}),
    ("OR knows no ones", table_of("or"), {"or": union}),
    ("shifts by a secret number move the mask", table_of("sll"), {"sll": moved}),
    ("SRA moves zeros in", table_of("sra"), {"sra": TABLE_1["srl"]}),
    ("comparisons have all bits", table_of("sltu"), {"sltu": rules.everything}),
    ("quotients are narrow", TABLE_1, {"div": union, "divu": union}),
    ("table 2 adds by table 1", TABLE_2, {"add": TABLE_1["add"]}),
    ("table 2 compares by table 1", TABLE_2, {"equal": TABLE_1["equal"]}),
    ("table 2 compares with a sign as without", TABLE_2, {"slt": TABLE_2["sltu"]}),
    ("table 2 takes the greatest difference wrongly", TABLE_2, {"sub": TABLE_2["add"]}),
    ("BLT is of the class of BLTU", CLASSES, {"blt": "sltu", "bge": "sltu", "slt": "sltu"}),
]


def determined(files, options):
    """What is determined of the answers to a trial by a table."""
    try:
        measured = measured_of(files, ["program", "public", "secret"], options)
    except Ended as ended:
        return [ended.args]
    cut = measured.cut()
    return [cut.text(), cut.folded().text(), without_flows(measured.certificate())]


def trials(seeds):
    """The trials of some seeds whose programs are not large."""
    made = map(measure_trial, seeds)
    return [trial for trial in made if len(trial[0]["program"]) < MOST_FILE]


def answer(trial):
    """What is determined of the answers by tables 1 and 2."""
    files, options = trial
    given = dict(options) | {"--turns": min(int(dict(options).get("--turns", MOST_TURNS)), MOST_TURNS)}
    return [part for table in (1, 2) for part in determined(files, given | {"--rules": table})]
