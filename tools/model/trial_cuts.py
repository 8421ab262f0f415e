"""Random cuts of a program: some under which its secrets are accepted, some that miss a point or a bit, some wild."""
from cuts import SLOTS, Cut, point_order, slot_width
from guest import ALL
from verdicts import MOST_BUDGET, judge

UNDERSTOOD = {"ad", "de", "nr", "a0", "a1", "a2", "ou", "st"}
MOST_COUNT = 4294967295


def joined(runs):
    """Runs of masks of which neighbours differ."""
    result = []
    for count, mask in runs:
        if result and result[-1][1] == mask:
            result[-1] = min(result[-1][0] + count, MOST_COUNT), mask
        else:
            result.append((count, mask))
    return result


def random_mask(dice, width):
    """A mask, often the whole width, sometimes beyond it."""
    kind = dice.random()
    if kind < 0.5:
        return width
    if kind < 0.8:
        return width & dice.choice([dice.randrange(1 << 32), dice.randrange(1 << 32), 1 << dice.randrange(32)])
    return dice.choice([dice.randrange(256), dice.randrange(1 << 32)])


def random_masks(dice, point, visits):
    """Any masks of a point."""
    width = slot_width(point[2])
    count = dice.choice([0, 0, 0, 1, 2]) if visits < 2 or dice.random() < 0.5 else dice.randint(1, min(visits + 1, 6))
    runs = joined([(1, random_mask(dice, width)) for _ in range(count)])
    if runs and dice.random() < 0.2:
        runs[-1] = min(runs[-1][0] + dice.choice([1, 2, 3, 4294967294]), MOST_COUNT), runs[-1][1]
    return runs, [(1, random_mask(dice, width))]


def whole_masks(dice, point, visits):
    """Masks under which every bit of every visit crosses, in some spelling."""
    width, kind = slot_width(point[2]), dice.random()
    if kind < 0.6:
        return [], [(1, width)]
    if kind < 0.8:
        return [(max(visits, 1), width)], [(1, dice.choice([0, width]))]
    return [(1, dice.choice([ALL, width]))], [(1, width)]


class CutMaker:
    """Makes a cut for a trial from the visits of its real runs."""

    def __init__(self, dice, program, regions, reals):
        self.dice, self.program, self.regions = dice, program, regions
        self.skip = {region.number for region in regions if dice.random() < 0.55}
        self.visits = {}
        for real in reals:
            self.count_visits(real)
        self.order = sorted(self.visits, key=point_order)
        self.points = {}

    def count_visits(self, real):
        """Counts the visits of each point in a run; what is kept is the most of any run."""
        counts = {}
        for _, turn in real.common_turns(self.skip):
            for visit in turn.visits:
                counts[visit[:3]] = counts.get(visit[:3], 0) + 1
        for point, count in counts.items():
            self.visits[point] = max(self.visits.get(point, 0), count)

    def is_strange(self, point):
        """Whether the point is in a strange piece."""
        return any(begin <= point[1] < end for begin, end in self.program.strange)

    def list_whole(self, is_listed):
        """Lists points with whole masks."""
        for point in self.order:
            if is_listed(point):
                self.points[point] = whole_masks(self.dice, point, self.visits[point])

    def choose_points(self):
        """Lists the points of some plan: at the reads, wherever a value is used, at the outputs, or none; in programs
        with strange pieces often everywhere but there."""
        dice = self.dice
        plan = dice.choice(["reads"] * 4 + ["uses"] * 4 + ["some"] * 2 + ["outputs", "none"])
        if self.program.strange and dice.random() < 0.65:
            plan = dice.choice(["around", "around", "fork"])
        if plan == "reads":
            self.list_whole(lambda point: point[2] == "in")
        elif plan == "uses":
            self.list_whole(lambda point: point[2] in UNDERSTOOD)
        elif plan == "outputs":
            self.list_whole(lambda point: point[2] in ("ou", "st"))
        elif plan == "around":
            self.list_whole(lambda point: point[2] in UNDERSTOOD and not self.is_strange(point))
        elif plan == "fork":
            self.choose_in_fork()
        if plan in ("reads", "uses", "around", "fork"):
            self.list_whole(lambda point: point[0] in self.skip and dice.random() < 0.9)
        if plan != "none":
            self.add_points(dice.choice([0, 0, 0, 2] if plan in ("around", "fork") else [0, 0, 1, 3, 8, 20]))
        if plan in ("reads", "uses", "some") and dice.random() < 0.4:
            self.list_many()
        if plan == "uses" and dice.random() < 0.3:
            self.points = {point: masks for point, masks in self.points.items() if dice.random() > 0.15}

    def list_many(self):
        """Lists most other points, and slots that these instructions may not pass, so that few values stay unseen."""
        dice = self.dice
        for point in self.order:
            for listed in (point, (*point[:2], dice.choice(SLOTS))):
                if listed not in self.points and dice.random() < 0.8:
                    masks = whole_masks if dice.random() < 0.6 else random_masks
                    self.points[listed] = masks(dice, listed, self.visits.get(listed, 1))
        for address in range(self.program.code, self.program.here, 4):
            if dice.random() < 0.2:
                self.points.setdefault((0, address, "rs"), ([], [(1, ALL)]))

    def choose_in_fork(self):
        """Lists some points of a strange piece, which the replay passes on another path."""
        dice = self.dice
        self.list_whole(lambda point: point[2] in UNDERSTOOD and not self.is_strange(point) and dice.random() < 0.7)
        for point in self.order:
            if point[2] in ("in", "ou", "st") and dice.random() < 0.3:
                self.points[point] = random_masks(dice, point, self.visits[point])
        begin, end = dice.choice(self.program.strange)
        numbers = sorted({point[0] for point in self.order}) or [0]
        for _ in range(dice.choice([0, 1, 2, 4, 7])):
            address = dice.randrange(begin, end, 4) if begin < end and dice.random() < 0.3 else end - 4
            point = dice.choice(numbers), address, dice.choice(SLOTS)
            self.points[point] = random_masks(dice, point, 2)

    def add_points(self, count):
        """Adds visited points, and some that may not be visited."""
        dice = self.dice
        for point in dice.sample(self.order, min(count, len(self.order))):
            masks = random_masks if dice.random() < 0.7 else whole_masks
            self.points[point] = masks(dice, point, self.visits[point])
        for _ in range(dice.choice([0, 0, 0, 1, 3])):
            number = dice.choice([0, 0, 9] + [region.number for region in self.regions])
            address = self.program.code + 4 * dice.randrange(len(self.program.words))
            address = dice.randrange(1 << 32) if dice.random() < 0.1 else address
            point = number, address, dice.choice(SLOTS + ["x5", "x6", "x10", "x31", "r0", "r63"])
            self.points[point] = random_masks(dice, point, 1)

    def cut(self, length):
        """The cut, for secrets of about this length."""
        dice = self.dice
        self.choose_points()
        if dice.random() < 0.02:
            length = dice.choice([0, length + 1, 65536])
        if dice.random() < 0.1:
            self.skip.add(dice.randint(1, 65535))
        return Cut(length, dice.choice([0, 8, dice.randrange(1 << 32)]), self.skip, self.points)


def random_pattern(dice, point, runs, rest):
    """The masks of a point with a pattern behind them: the mask that was there, alone or among others, or the masks
    before it, again and again."""
    kind = dice.random()
    if kind < 0.35:
        return runs, rest
    if runs and kind < 0.65:
        return dice.choice([[], runs]), runs
    masks = [rest[0][1], rest[0][1], random_mask(dice, slot_width(point[2]))]
    return runs, joined([(dice.choice([1, 1, 2, 3]), dice.choice(masks)) for _ in range(dice.randint(1, 5))])


def with_patterns(dice, cut):
    """The cut in version 2, with patterns."""
    points = {point: random_pattern(dice, point, *masks) for point, masks in cut.points.items()}
    return Cut(cut.secret_length, cut.bits, cut.skip, points, 2)


def thinned(dice, cut):
    """The cut with some points left out, and of others some bits."""
    points = dict(cut.points)
    for point in dice.sample(sorted(points, key=point_order), min(len(points), dice.choice([1, 1, 2, 4]))):
        runs, rest = points.pop(point)
        if dice.random() < 0.3:
            mask = dice.randrange(1 << 32) | dice.randrange(1 << 32)
            points[point] = joined([(count, listed & mask) for count, listed in runs]), [(1, rest[0][1] & mask)]
    return Cut(cut.secret_length, cut.bits, cut.skip, points)


def random_cut(dice, program, inputs, regions, reals, limit):
    """A cut; often with as few points as some tries find, so that the first secret is accepted, or just not."""
    image, public, secrets = inputs
    cut = CutMaker(dice, program, regions, reals).cut(len(secrets[0]))
    if not cut.points or dice.random() < 0.55:
        return cut

    def accepts(tried):
        """Whether the first secret is accepted under a cut."""
        judged = judge(image, public, secrets[0], regions, tried, MOST_BUDGET, limit, reals[0])
        return judged.word == "accepted"

    if not accepts(cut):
        return cut
    refused = None
    for _ in range(dice.choice([3, 8, 14])):
        tried = thinned(dice, cut)
        if accepts(tried):
            cut = tried
        else:
            refused = tried
    return refused if refused and dice.random() < 0.25 else cut
