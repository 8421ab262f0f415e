"""Cuts and region files: the mask at each visit, and the texts of files that are well formed."""
import itertools
import json

from guest import ALL, Region, shown

SLOTS = "u1 u2 ad rs de nr a0 a1 a2 in ou st".split()
NAMES = {f"x{number}": number for number in range(1, 32)}
NAMES |= {"ra": 1, "sp": 2, "gp": 3, "tp": 4, "s0": 8, "fp": 8, "s1": 9}
NAMES |= {f"t{index}": 5 + index for index in range(3)} | {f"t{index}": 25 + index for index in range(3, 7)}
NAMES |= {f"a{index}": 10 + index for index in range(8)} | {f"s{index}": 16 + index for index in range(2, 12)}


def slot_order(slot):
    """Where a slot stands in the order of slots: the named ones, then x1 to x31, then r0 to r63."""
    if slot in SLOTS:
        return SLOTS.index(slot)
    return (100 if slot[0] == "x" else 200) + int(slot[1:])


def point_order(point):
    """The key by which the points of a cut ascend: region, address, slot."""
    return point[0], point[1], slot_order(point[2])


def slot_width(slot):
    """The bits that a value of the slot can have."""
    if slot == "de":
        return 1
    is_byte = slot in ("in", "ou", "st") or slot[0] == "r" and slot != "rs"
    return 255 if is_byte else ALL


MOST_FOLDED, MOST_PATTERN = 65_536, 64


def length_of(runs):
    """How many masks some runs are."""
    return sum(count for count, _ in runs)


def mask_in(runs, place):
    """The mask at a place, counted from 0."""
    for count, mask in runs:
        if place < count:
            return mask
        place -= count
    raise IndexError(place)


def runs_of(masks):
    """Masks as runs of which neighbours differ."""
    return [(len(list(group)), mask) for mask, group in itertools.groupby(masks)]


def run_words(runs):
    """Runs as words of a cut."""
    return [f"{count}*{shown(mask)}" for count, mask in runs]


class Cut:
    """A cut. A point is (region, address, slot); its masks are runs (count, mask), and the runs of a pattern that
    repeats behind them. In version 1 the pattern is one mask."""

    def __init__(self, secret_length, bits=0, skip=(), points=None, version=1):
        self.secret_length, self.bits, self.skip = secret_length, bits, sorted(skip)
        self.points, self.version = points or {}, version

    def mask_at(self, point, visit):
        """The mask at the visit with this number, counted from 1; 0 where the point is not listed."""
        if point not in self.points:
            return 0
        runs, rest = self.points[point]
        length = length_of(runs)
        mask = mask_in(runs, visit - 1) if visit <= length else mask_in(rest, (visit - length - 1) % length_of(rest))
        return mask & slot_width(point[2])

    def text(self):
        """The one text of the cut."""
        lines = [f"flowcheck-cut {self.version}", f"secret {self.secret_length}", f"bits {self.bits}"]
        lines += [f"skip {number}" for number in self.skip]
        for point in sorted(self.points, key=point_order):
            region, address, slot = point
            runs, rest = self.points[point]
            last = [shown(rest[0][1])] if self.version == 1 else run_words(rest)
            lines.append(" ".join(["point", str(region), shown(address), slot, *run_words(runs), "rest", *last]))
        return "\n".join(lines + ["end", ""])

    def migrated(self):
        """The same cut in version 2."""
        return Cut(self.secret_length, self.bits, self.skip, self.points, 2)

    def folded(self):
        """The cut in version 2, with the masks of each point as a pattern where they repeat one."""
        points = {point: folded(*masks) for point, masks in self.points.items()}
        return Cut(self.secret_length, self.bits, self.skip, points, 2)


def folded(runs, rest):
    """The shortest pattern that these masks repeat at least twice, or the same masks."""
    if length_of(runs) > MOST_FOLDED:
        return runs, rest
    masks = [mask for count, mask in runs for _ in range(count)]
    for period in range(1, min(MOST_PATTERN, len(masks) // 2) + 1):
        if masks[period:] == masks[:-period]:
            return [], runs_of(masks[:period])
    return runs, rest


class VisitMasks:
    """Numbers the visits of one run and answers the mask of each."""

    def __init__(self, cut):
        self.cut = cut
        self.visits = {}

    def mask_of(self, visit):
        """The mask of the next visit, which is (region, address, slot, value)."""
        point = visit[:3]
        if point not in self.cut.points:
            return 0
        self.visits[point] = self.visits.get(point, 0) + 1
        return self.cut.mask_at(point, self.visits[point])


def places_of(mask):
    """The bits of a mask, each as a power of two, the lowest first."""
    return [1 << index for index in range(mask.bit_length()) if mask >> index & 1]


def read_runs(words):
    """The runs of the words of a cut; a mask alone is a run of one."""
    pairs = [word.split("*") if "*" in word else ("1", word) for word in words]
    return [(int(count), int(mask, 16)) for count, mask in pairs]


def read_cut(file):
    """The cut of a well-formed text."""
    lines = file.decode().split("\n")
    cut = Cut(int(lines[1].split()[1]), int(lines[2].split()[1]), version=int(lines[0].split()[1]))
    for line in lines[3:-2]:
        words = line.split()
        if words[0] == "skip":
            cut.skip.append(int(words[1]))
        else:
            rest = words.index("rest")
            masks = read_runs(words[4:rest]), read_runs(words[rest + 1 :])
            cut.points[int(words[1]), int(words[2], 16), words[3]] = masks
    return cut


def read_regions(file):
    """The regions of a well-formed region file."""
    regions = []
    for item in json.loads(file)["regions"]:
        ranges = [
            (NAMES[span["base"]] if span.get("base") else None, span.get("offset", 0) & ALL, span["length"])
            for span in item.get("ranges", [])
        ]
        outs, keep = ([NAMES[name] for name in item.get(key, [])] for key in ("outs", "keep"))
        regions.append(Region(item["id"], int(item["enter"], 16), int(item["leave"], 16), outs, keep, ranges))
    return regions
