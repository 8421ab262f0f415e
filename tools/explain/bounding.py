"""Cuts with which `bound` answers: each is asked about, gets the points that it lacks, and is asked about again."""
import re
from collections import Counter

from answering import command_words
from bounds import Task
from cuts import Cut, point_order, read_cut
from guest import shown
from run_facts import read
from tool import Progress, text_file
from verdicts import MOST_BUDGET, USUAL_TURNS
from walk_tracing import endless_of, traced

USUAL_PATHS, FEW_PATHS = 1 << 16, 1 << 10
SEARCH_RULES = "3"
# Where the budget was raised so often, it is looked whether a loop has no end.
LOOK_FOR_LOOPS = 8
LINE = re.compile(r"output \d+ free (\d+) bytes (\S+) status (\d+)(?: mask (\S+) (\S+))?")


class NoBound(Exception):
    """Nothing can be asked; the text is the program's."""


class Pattern:
    """A line of the list: the bytes and the status, and the masks of the bits that are free in them."""

    def __init__(self, line):
        free, written, status, masks, mask = LINE.fullmatch(line).groups()
        self.free, self.written, self.status = int(free), self.bytes_of(written), int(status)
        self.masks = self.bytes_of(masks) if masks else bytes(len(self.written))
        self.status_mask = int(mask or "0", 16)

    @staticmethod
    def bytes_of(text):
        """Bytes in hexadecimal; a dash is none."""
        return b"" if text == "-" else bytes.fromhex(text)

    def holds(self, written, status):
        """Whether it stands for an output."""
        if len(written) != len(self.written) or (status ^ self.status) & ~self.status_mask:
            return False
        return all(not (one ^ other) & ~mask for one, other, mask in zip(written, self.written, self.masks))

    def bytes_text(self):
        """The bytes as they are written in C, with a question mark for each that has free bits."""
        written = "".join("?" if mask else byte_text(byte) for byte, mask in zip(self.written, self.masks))
        return f'"{written}"'

    def status_text(self):
        """The status, or a question mark where it has free bits."""
        return "?" if self.status_mask else str(self.status)

    def text(self):
        """Both together."""
        free = f", {self.free} bit{'s' * (self.free > 1)} free" if self.free else ""
        return f"{self.bytes_text()} status {self.status_text()}{free}"


def byte_text(byte):
    """A byte as it is written in C."""
    named = {10: "\\n", 9: "\\t", 34: '\\"', 92: "\\\\"}
    return named.get(byte) or (chr(byte) if 32 <= byte < 127 else f"\\x{byte:02x}")


class Answer:
    """What `bound` has answered about a cut: numbers and patterns where it is bounded, else the reason."""

    def __init__(self, text, cut, budget):
        self.cut, self.budget, self.line = cut, budget, text.rstrip("\n").split("\n")[-1]
        self.patterns = [Pattern(line) for line in text.split("\n") if line.startswith("output ")]
        self.stopped_line = next((line for line in text.split("\n") if line.startswith("stopped ")), None)
        words = [word for word in self.line.split() if word != "held"]
        self.holds = " held " in self.line
        self.is_bounded = words[0] == "bounded"
        self.reason = None if self.is_bounded else " ".join(words[5:])
        if self.is_bounded:
            pairs = zip(words[1::2], words[2::2])
            self.numbers = {name: None if number == "-" else int(number) for name, number in pairs}

    def is_waiting(self):
        """Whether it may be bounded with more walks."""
        return not self.is_bounded and self.reason.startswith("paths ")

    def is_of_all(self):
        """Whether it is said of all secrets: no path stopped, and there is no region, or each holds."""
        return self.is_bounded and self.numbers["stopped"] == 0 and (self.holds or self.numbers["regions"] == 0)


class Bounding:
    """The asking about one program on its public input, or on any of its length, with regions that are to hold or not.
    `options` are words of `bound` with a value each; `inputs` names the files."""

    def __init__(self, asked, inputs, program, is_any_public=False, holds=False):
        self.asked, self.inputs, self.program, self.regions = asked, inputs, program, inputs.regions()
        self.public, self.is_any_public, self.holds = read(inputs.public), is_any_public, holds
        numbers = (("--rules", 1), ("--turns", USUAL_TURNS), ("--paths", USUAL_PATHS))
        words = [inputs.option(name) or str(usual) for name, usual in numbers]
        if not all(word.isdigit() for word in words):
            raise NoBound("refused 2 usage")
        self.table, self.turns, self.paths = map(int, words)
        self.progress, self.calls = Progress(), 0

    def answer(self, cut, budget, paths=None):
        """What `bound` answers about a cut, with as many walks as are allowed or fewer."""
        options = [*self.inputs.without("--paths"), "--paths", str(paths or self.paths), *self.flags(), "--list"]
        with text_file(cut.text(), ".cut") as name:
            words = ["bound", self.inputs.program, self.inputs.public, name, str(budget)]
            self.calls += 1
            self.progress.show(f"call {self.calls:,} of bound, with at most {paths or self.paths:,} walks")
            status, text = self.asked.answer([*words, *options])
        self.progress.show("")
        if status not in (0, 1) or not text.startswith(("output", "stopped", "bounded", "unclear")):
            raise NoBound((text.strip() or f"status {status}") + self.asked.explained())
        return Answer(text, cut, budget)

    def beginnings(self, secrets):
        """The cut of some secrets, the one without a point that skips the same regions, and the one that skips all."""
        measured = self.measured(secrets)
        name = f"with the cut of {len(secrets)} secret{'s' * (len(secrets) > 1)}"
        made = [(name, measured), ("without a point", Cut(measured.secret_length, 0, measured.skip))]
        empty = self.empty(measured.secret_length)
        return made + [("without a point, past each region", empty)] * (empty.skip != measured.skip)

    def flags(self):
        """The words without a value."""
        return ["--any-public"] * self.is_any_public + ["--hold"] * self.holds

    def again(self, cut_name, answer):
        """The words that ask again with a file of the cut."""
        named = self.inputs.program, self.inputs.public, cut_name, str(answer.budget)
        return [*command_words(), "bound", *named, *self.inputs.options, *self.flags(), "--list"]

    def task(self, cut, budget):
        """What is walked, for the model."""
        limits = budget, self.turns, self.paths, self.is_any_public, self.holds
        return Task(self.program.image, self.public, self.regions, cut, self.table, *limits)

    def walk(self, answer):
        """The walk of the path that is unclear, by the model, with origins."""
        return traced(self.task(answer.cut, answer.budget), answer.line)

    def measured(self, secrets):
        """The cut of some secrets."""
        words = [self.inputs.program, self.inputs.public, *secrets, *self.inputs.without("--paths")]
        command = "measure" if len(secrets) == 1 else "measure-all"
        text = self.asked.text([command, *words], lambda said: NoBound(said + self.asked.explained()))
        return read_cut(text.encode())

    def empty(self, length):
        """The cut of secrets of a length that has no point, and skips each region."""
        return Cut(length, 0, [region.number for region in self.regions])


class Search:
    """A search for a cut that begins with one and gives it what it lacks, in some rounds and with so many walks. `tell`
    is told of each. What a decision is made of crosses in its place where that has a few bits, at most `few`. Where
    regions are to hold, no path is walked by the model, which would run them too: the slot that is left crosses."""

    def __init__(self, bounding, rounds, paths, tell, few=0):
        self.bounding, self.rounds, self.paths, self.tell, self.few = bounding, rounds, paths, tell, few

    def search(self, cut):
        """The last answer, and the walk of its path where it is unclear."""
        cut, least, raised = self.copied(cut), min(cut.bits, MOST_BUDGET), 0
        budget = least
        for _ in range(self.rounds):
            answer = self.bounding.answer(cut, budget, self.paths)
            if answer.is_bounded:
                return self.with_least(answer, least), None
            words = answer.reason.split()
            if words[0] == "budget" and int(words[3]) <= MOST_BUDGET:
                least, raised = int(words[3]), raised + 1
                budget = min(max(least, budget + (1 << raised - 1)), MOST_BUDGET)
                self.tell(f"{answer.reason}: budget {budget}")
                if raised % LOOK_FOR_LOOPS == 0 and not self.bounding.holds:
                    walk = self.bounding.walk(answer)
                    if endless_of(walk):
                        return answer, walk
                continue
            if self.bounding.holds:
                lines = self.added(cut, slot_of(words))
                if not lines:
                    return answer, None
                self.tell(f"{answer.reason}: {', '.join(lines)}")
                continue
            walk = self.bounding.walk(answer)
            if walk.unclear != answer.reason and words[0] not in ("paths", "outputs"):
                raise NoBound(f"the model in tools/model says another thing, which is a fault: {walk.unclear}")
            lines = self.added(cut, walk.missing(self.few))
            if not lines:
                return answer, walk
            self.tell(f"{answer.reason}: {', '.join(lines)}")
        return answer, None if self.bounding.holds else self.bounding.walk(answer)

    @staticmethod
    def copied(cut):
        """A cut of its own with the same lines."""
        return Cut(cut.secret_length, cut.bits, cut.skip, dict(cut.points), cut.version)

    def with_least(self, answer, least):
        """The answer with the least budget from one on, which becomes the number of the cut. What is bounded with a
        budget is so with each greater one."""
        tried = least
        while least < answer.budget:
            lower = self.bounding.answer(self.copied(answer.cut), tried, self.paths)
            if lower.is_bounded:
                answer = lower
            else:
                words = lower.reason.split()
                least = max(tried + 1, int(words[3]) if words[0] == "budget" else 0)
            tried = (least + answer.budget) // 2
        answer.cut.bits = answer.budget
        return answer

    @staticmethod
    def added(cut, missing):
        """Adds points to a cut, each for all visits; the lines that it has now and had not."""
        lines = []
        for point in sorted(missing, key=point_order):
            listed = cut.points.get(point, ([], [(1, 0)]))
            masks = missing[point]
            for _, mask in sum(listed, []):
                masks |= mask
            if listed != ([], [(1, masks)]):
                cut.points[point] = [], [(1, masks)]
                lines.append(f"point {point[0]} {shown(point[1])} {point[2]} rest {shown(masks)}")
        return lines


def slot_of(words):
    """The point that a reason names, with its bits, if it names one."""
    return {(int(words[1]), int(words[2], 16), words[3]): int(words[5], 16)} if words[0] == "left" else {}


def limits_of(paths):
    """How many walks are allowed one after the other: few, eight times as many, and so on up to all."""
    limits = [min(FEW_PATHS, paths)]
    while limits[-1] < paths:
        limits.append(min(8 * limits[-1], paths))
    return limits


def found(bounding, beginnings, rounds, measured, tell):
    """The best answer with its walk. Each beginning is tried with few walks, and goes on with eight times as many until
    all are made that are allowed; an answer is taken at once where it has no more bits than were measured, else the one
    with the fewest."""
    best, last = None, {}
    for paths in limits_of(bounding.paths):
        for name, cut in beginnings:
            begun = last[name][0].cut if name in last else cut
            if name in last and not last[name][0].is_waiting():
                continue
            tell(f"Begins {name}, with at most {paths:,} walks." if name not in last else
                 f"Goes on {name}, with at most {paths:,} walks.")
            last[name] = answer, walk = Search(bounding, rounds, paths, lambda text: tell("    " + text)).search(begun)
            if not answer.is_bounded:
                answer.cut.bits = answer.budget
                tell(f"    unclear: {answer.reason}")
                continue
            tell(f"    {answer.line}")
            if measured is None or answer.numbers["bits"] <= measured:
                return answer, walk
            best = best if best and best[0].numbers["bits"] <= answer.numbers["bits"] else (answer, walk)
    # Of those that are unclear, one that more walks do not help says most.
    settled = next((pair for pair in last.values() if not pair[0].is_waiting()), None)
    return best or settled or last[beginnings[0][0]]


def choices_by_point(walk):
    """How many choices of a path were made at each point, the most first."""
    return Counter(point for point, _, _ in walk.places).most_common()
