"""Tests of explain.py, lint.py and regions.py.

Call: picture_tests.py [--count N] [--flowcheck COMMAND]

Pages of N random guests (100 without the option), of the stories under examples/ where there are compilers, and of
stored guests: their numbers must be those of `report --json`, their pictures must carry the same flow from the secret
to the cut and to what is seen, and the pages of random secrets must tell the verdict that `check` tells. Texts that are
spoilt at random must be refused as the model refuses them. Where there is Chromium no page may be wider than a window
of 1280 or 390 pixels. FLOWCHECK, or the option, is the program; without it the built one is taken, else the model."""
import argparse
import collections
import json
import os
import random
import re
import subprocess
import sys

TOOLS = os.path.dirname(os.path.dirname(os.path.abspath(__file__)))
sys.path[:0] = [TOOLS, os.path.join(TOOLS, "guests")]

import explain
from answering import Program
from bound_page import MOST_OUTPUTS, Bounded, bound_page
from bound_trials import bound_trial
from bounds import Walk, behind
from compare_manys import many_trial
from compare_taints import taint_trial
from cuts import places_of, read_cut
from decision_tree import GraphLines, Leaf
from document import html_page, text_page
from elf_symbols import ProgramFile
from expecting import Expectations, compilers, run_all
from faults_of_text import cut_text_fault, regions_text_fault
from graph_picture import WIDE, GraphPicture
from guest_folder import GuestFolder
from many_page import many_page
from many_runs import ManyRuns
from measure_trials import measure_trial
from picture_checks import Chromium, PageNumbers, page_wrongs
from refusals import cut_fault, regions_fault
from rejection import Rejection
from rejection_page import rejection_page
from run_facts import Inputs, NoMeasure, read
from source_lines import ADDR2LINE, LLVM, Places
from taint_page import taint_page
from tainting import Tainting
from trials import random_trial

TOP = os.path.dirname(TOOLS)
STORIES = [("password", ["early", "constant"]), ("redactor", ["stars", "initial"]), ("auction", ["open", "sealed"])]
INPUTS = {"password": ("typed", "password"), "redactor": ("letter", "name"), "auction": ("lowest", "bids")}
STORED = [
    ("crates/machine_rows/data/pin-gcc.elf", "examples/guests/typed", "examples/guests/pin"),
    ("crates/machine_rows/data/pin-clang.elf", "examples/guests/typed", "examples/guests/pin"),
    ("examples/bit/program", "examples/bit/public", "examples/bit/secret3"),
]
DEEP = """
#include "flowcheck.h"
static volatile unsigned char table[16]; static unsigned total;
__attribute__((noinline)) static unsigned inner(unsigned char *bytes, unsigned count) {
    unsigned char copy[32]; volatile unsigned sum = 0;
    for (unsigned i = 0; i < count; i++) { copy[i] = bytes[i]; table[i & 15] = copy[i]; }
    for (unsigned i = 0; i < count; i++) if (copy[i] & 1) sum += copy[i];
    total += sum; return sum;
}
__attribute__((noinline)) static unsigned outer(unsigned char *bytes, unsigned *parity) {
    unsigned sum = inner(bytes, 8) + inner(bytes + 8, 8);
    *parity = sum & 1; return sum & 7;
}
int main(void) {
    unsigned char bytes[16]; unsigned parity = 0;
    read_secret(bytes, 16);
    unsigned low = outer(bytes, &parity);
    return (low << 1 | (parity & 1)) & 15;
}
"""
TAIL = """
#include "flowcheck.h"
static volatile int sink;
__attribute__((noinline)) static int leaf(int x) { for (int i = 0; i < x; i++) sink += i; return sink; }
__attribute__((noinline)) static int middle(int x) { sink = x; return leaf(x + 1); }
__attribute__((noinline)) static int down(int x) { return x <= 0 ? sink : down(x - 1) + down(x - 2); }
int main(void) { unsigned char s; read_secret(&s, 1); return (middle(s & 3) + down(s & 3)) & 3; }
"""
SPREAD = """
#include "flowcheck.h"
static volatile unsigned char places[256]; static volatile int seen;
__attribute__((noinline)) static int spread(int x) { for (int i = 0; i < 85; i++) places[3 * i] = x; return places[9]; }
__attribute__((noinline)) static int choose(int x) { if (x > 99) { seen = x; places[2] = x; } return x & 1; }
int main(void) {
    unsigned char s[2]; read_secret(s, 2);
    int longest = 0;
    for (int i = 0; i < s[0]; i++)
        if (places[i & 7] < s[1])
            longest = i;
    return (spread(s[0]) + choose(s[0]) + longest) & 3;
}
"""
LINES = "spread.c:9-11"


def taint_words(seed):
    """The files of a trial of `taint`, and its words."""
    files, words, rules = taint_trial(seed)
    return files, words + rules


class Tests(GuestFolder, Expectations):
    """The tests, with a folder for files and the pages that a window is asked about."""

    def __init__(self, folder, program, count):
        Expectations.__init__(self, folder)
        self.program, self.count, self.pages, self.shown = program, count, [], collections.Counter()

    def count_one(self, kind):
        """Counts one of a kind; how many there are."""
        self.counts[kind] = self.counts.get(kind, 0) + 1
        return self.counts[kind]

    def write_all(self, files):
        """Writes files into the folder."""
        for name, data in files.items():
            self.write(name, data)

    def words(self, *plain, **options):
        """The words of explain.py."""
        named = ("turns", "regions", "rules", "paths", "check", "taint", "bound", "against")
        usual = dict.fromkeys(named) | {"source": [], "any_public": False, "seconds": 0}
        program, public, *secret = plain
        given = {"program": program, "public": public, "secret": secret, "flowcheck": self.program}
        return argparse.Namespace(**(usual | given | options))

    def page(self, what, *plain, **options):
        """Makes the page of a run in both forms, and compares its numbers with those of `report --json`."""
        title, sections = explain.page(self.words(*plain, **options))
        text, page = text_page(title, sections), html_page(title, sections)
        named = [name for name in ("turns", "regions", "rules") if options.get(name)]
        flat = [word for name in named for word in (f"--{name}", options[name])]
        asked = Program(self.program)
        status, answer = asked.answer(["report", *plain, *flat, "--json"])
        if status:
            is_told = "".join(answer.split()) in "".join(text.split()) and answer.split()[-1] in page
            self.expect(f"refused pages: {what}", is_told, answer)
            return page, text
        numbers = json.loads(answer)
        cut = read_cut(asked.answer(["measure", *plain, *flat])[1].encode())
        listed = json.load(open(options["regions"], encoding="utf-8"))["regions"] if options.get("regions") else []
        wrongs = list(page_wrongs(PageNumbers(page), text, numbers, cut, [region["id"] for region in listed]))
        self.expect(f"pages: {what}", not wrongs, "; ".join(wrongs))
        return page, text

    def test_stored(self):
        """Pages of stored guests, which have no debug information."""
        for words in STORED:
            page, _ = self.page(words[0], *(os.path.join(TOP, word) for word in words))
            self.pages.append((words[0], page))

    def test_random(self):
        """Pages of random guests."""
        for seed in range(1, self.count + 1):
            files, options = measure_trial(seed)
            if len(files["program"]) > 100_000:
                continue
            self.write_all(files)
            named = {name.lstrip("-"): value for name, value in options}
            if "regions" in named:
                named["regions"] = self.path("regions")
            page, _ = self.page(f"seed {seed}", *(self.path(name) for name in ("program", "public", "secret")), **named)
            if seed % 20 == 0:
                self.pages.append((f"seed {seed}", page))

    def judge_random(self, trial_of, judge):
        """Judges the secrets of random trials, each by the words of its command."""
        for seed in range(1, self.count + 1):
            files, words = trial_of(seed)
            self.write_all(files)
            budget = next(word for word in words[3:] if word.isdigit())
            options = dict(re.findall(r"--(turns|regions|rules)[= ](\S+)", " ".join(words)))
            options = {name: self.path(value) if name == "regions" else value for name, value in options.items()}
            for name in [word for word in words if word.startswith("secret")]:
                judge(f"seed {seed} {name}", budget, self.path(name), options)

    def judged(self, name, make, page_of, what, budget, secret, options):
        """Makes the page of one secret: what was seen, its kind, and the page as a text."""
        flat = [word for option, value in options.items() for word in (f"--{option}", value)]
        program = ProgramFile(read(self.path("program")))
        inputs = Inputs(self.path("program"), self.path("public"), secret, flat)
        seen = make(Program(self.program), inputs, self.path("cut"), budget, program)
        title, sections = page_of(seen, program, Places(self.path("program"), program))
        text, page = text_page(title, sections), html_page(title, sections)
        is_told = seen.line == seen.model_line and "".join(seen.line.split()) in "".join(text.split())
        self.expect(f"{name}: {what}", is_told, f"{seen.line} | {seen.model_line}")
        word = seen.model_line.split()[0]
        kind = word if word in ("accepted", "clean") else seen.reason.split(" ")[0]
        self.count_one(f"{name} told: {kind}")
        self.shown[name, kind] += 1
        if self.shown[name, kind] <= 2:
            self.pages.append((f"{'taint ' * (name == 'taints')}{what}", page))
        return seen, kind, text

    def test_rejections(self):
        """Pages of random checks: the verdict and the place must be those of `check`."""
        self.judge_random(random_trial, self.rejection)

    def rejection(self, what, *named):
        """Makes the page of one check."""
        seen, kind, _ = self.judged("checks", Rejection, rejection_page, what, *named)
        marks = re.fullmatch(r"parted real (.*) replay (.*)", seen.reason)
        if marks:
            self.expect(f"places: {what}", seen.lockstep.marks() == marks.groups(), seen.reason)
        if kind in ("parted", "output"):
            differing = [passed for passed in seen.lockstep.passed if passed.differs()]
            self.expect(f"differences: {what}", bool(differing or len(seen.lockstep.passed) > 0), seen.reason)
            self.expect(f"covers: {what}", bool(seen.covers), seen.reason)

    def test_taints(self):
        """Pages of random checks with one machine: the finding must be that of `taint`, and what is left must be shown
        and be cleared by the lines that are named."""
        self.judge_random(taint_words, self.finding)

    def finding(self, what, *named):
        """Makes the page of one check with one machine."""
        seen, kind, text = self.judged("taints", Tainting, taint_page, what, *named)
        if kind == "left":
            (point, mask), = seen.lines
            line = f"point {point[0]} 0x{point[1]:08x} {point[2]} rest 0x{mask:08x}"
            self.expect(f"lines that clear: {what}", line in text and "(decides)" in text, text)
        if kind in ("left", "secret-code") or " base " in seen.reason:
            is_cleared = not seen.whole.text.startswith(("left", "secret-code")) and " base " not in seen.whole.text
            self.expect(f"lines that clear: {what} whole", is_cleared, seen.whole.text)

    def test_bounds(self):
        """Pages of random bounds: the line must be that of `bound`, and the outputs as many as its list has."""
        for seed in range(1, self.count + 1, 2):
            files, words = bound_trial(seed)
            self.write_all(files)
            named = dict(re.findall(r"--(turns|regions|rules|paths)[= ](\S+)", " ".join(words)))
            options = {name: self.path(value) if name == "regions" else value for name, value in named.items()}
            flat = [word for name, value in options.items() for word in (f"--{name}", value)]
            self.bound(f"seed {seed}", words[4], flat, seed % 4 == 1)

    def bound(self, what, budget, options, is_any_public):
        """Makes the page of one bound. The lines of its graph must have each state once, and the ways from it; and each
        path that the model walks from the start must lead through them to its output."""
        program, asked = ProgramFile(read(self.path("program"))), Program(self.program)
        inputs = Inputs(self.path("program"), self.path("public"), None, options)
        seen = Bounded(asked, inputs, [self.path("cut"), budget], program, is_any_public)
        places = Places(self.path("program"), program)
        title, sections = bound_page(seen, program, places)
        text, page = text_page(title, sections), html_page(title, sections)
        words = ["bound", inputs.program, inputs.public, self.path("cut"), budget, *options]
        words += [*seen.bounding.flags(), "--list"]
        lines = asked.answer(words)[1].split("\n")
        listed = min(MOST_OUTPUTS, sum(line.startswith("output ") for line in lines))
        is_told = "".join(lines[-2].split()) in "".join(text.split())
        self.expect(f"bounds: {what}", is_told and page.count("data-output=") == listed, f"{lines[-2]} {listed}")
        if seen.walk:
            is_same = seen.walk.unclear == seen.answer.reason or seen.answer.reason.startswith(("paths", "outputs"))
            self.expect(f"walks: {what}", is_same, f"{seen.answer.reason} | {seen.walk.unclear}")
        elif seen.graph:
            graph = GraphLines(seen.graph, seen.answer.patterns, program, places).lines()
            states, ways = len(seen.graph.known), sum(" -> " in line for line in graph)
            is_whole = sum(line.startswith("state ") for line in graph) == states
            is_whole = is_whole and (not states or ways == seen.graph.ways)
            self.expect(f"graphs: {what}", is_whole and self.are_led(seen), "\n".join(graph))
            picture = GraphPicture(seen.graph, seen.answer.patterns)
            drawn = re.findall(r'<g class="box cut"><rect [^>]*/><text [^>]*>(state \d+)</text></g>', picture.svg(WIDE))
            numbers = {f"state {number}" for number in range(1, states + 1)}
            if picture.places(WIDE)[0]:
                is_drawn = len(drawn) == states and set(drawn) == numbers
                self.expect(f"graphs drawn: {what}", is_drawn, f"{drawn} of {states}")
        kind = "unclear" if seen.walk else "bounded"
        if self.count_one(f"bounds told: {kind}") <= 3:
            self.pages.append((f"bound {what}", page))

    def are_led(self, seen):
        """Whether each path that is walked from the start comes through the graph to the same end; of few paths."""
        task, path = seen.bounding.task(seen.cut, int(seen.budget)), []
        for _ in range(64):
            walk, node, left = Walk(task, path).run(), seen.graph.first, None
            left = list(walk.choices)
            while not isinstance(node, Leaf):
                node, count = next((target, count) for chosen, target in node.ways for count in [bits_in(chosen, left)]
                                   if count)
                left = left[count:]
            if left or node.ending != walk.ending or node.output != bytes(walk.guest.output):
                return False
            path = behind(list(walk.choices))
            if path is None:
                break
        return True

    def test_manys(self):
        """Pages of several random runs under one cut: what crosses in each must be what `check` says."""
        for seed in range(1, self.count + 1):
            files, words = many_trial(seed)
            self.write_all(files)
            options = dict(re.findall(r"--(turns|regions|rules)[= ](\S+)", " ".join(words)))
            flat = [word for name, value in options.items() for word in (f"--{name}", value)]
            flat = [self.path("regions") if word == "regions" else word for word in flat]
            secrets = [self.path(word) for word in words if word.startswith("secret")]
            inputs = Inputs(self.path("program"), self.path("public"), secrets[0], flat)
            program = ProgramFile(read(self.path("program")))
            try:
                many = ManyRuns(Program(self.program), inputs, secrets, program)
            except NoMeasure:
                continue
            title, sections = many_page(many, program, Places(self.path("program"), program))
            text, page = text_page(title, sections), html_page(title, sections)
            said = [run.line.startswith(f"accepted {number} bits {run.total()} ")
                    for number, run in enumerate(many.runs, 1)]
            self.expect(f"several runs: seed {seed}", all(said) and f"at most {many.cut.bits} bit" in text, text)
            if seed % 20 == 0:
                self.pages.append((f"several runs {seed}", page))

    def test_lint(self):
        """Texts that are spoilt at random are refused as the model refuses them, with a line and a caret."""
        dice = random.Random(1)
        for seed in range(1, 4 * self.count + 1):
            files, _ = random_trial(seed % 50 + 1, True)
            cut = spoilt(dice, files["cut"])
            self.same_refusal("cuts", seed, cut_text_fault(cut), cut_fault(cut), "refused 3 cut ")
            if "regions" in files:
                regions = spoilt(dice, files["regions"])
                faults = regions_text_fault(regions), regions_fault(regions)
                self.same_refusal("regions", seed, *faults, "refused 3 regions ")

    def same_refusal(self, what, seed, fault, refusal, head):
        """Compares a refusal with that of the model."""
        given = fault.refusal if fault else None
        is_right = given == (head + refusal if refusal else None)
        is_told = not fault or bool(fault.lines("name"))
        self.expect(f"refused {what}: {seed}", is_right and is_told, f"{given} for {refusal}")

    def test_findings(self):
        """What lint.py finds in a cut that is taken in silence."""
        program, cut = os.path.join(TOP, "examples/bit/program"), self.path("cut")
        for line, expected in (
            ("point 0 0x00010018 rs rest 0x00000001", "nothing found"),
            ("point 0 0x00010019 rs rest 0x00000001", "multiples of 4"),
            ("point 0 0x00020000 rs rest 0x00000001", "no instruction at this address"),
            ("point 0 0x00010018 de rest 0x00000001", "passes no de"),
            ("point 0 0x00010018 a0 rest 0x00000001", "a0 is an argument of a call"),
            ("point 1 0x00010018 x10 rest 0x00000001", "no region has the number 1"),
            ("skip 3", "no region has this number"),
            ("point 0 0x00010010 in rest 0x00000100", "beyond the slot's width 0x000000ff"),
            ("point 0 0x00010018 rs rest 0x00000000", "no bit ever crosses"),
            ("point 0 0x00010018 rs rest 0x1", "exactly eight digits: 0x00000001"),
            ("point 0 0x00010018  rs rest 0x00000001", "exactly one space apart"),
            ("point 0 0x0001001A rs rest 0x00000001", "lower case letters: 0x0001001a"),
            ("point 0 0x00010018 rs rest 0x00000001\r", "CR and LF"),
        ):
            self.write_all({"cut": f"flowcheck-cut 1\nsecret 1\nbits 1\n{line}\nend\n".encode()})
            found = output("lint.py", program, cut)[1]
            self.expect(f"findings: {line}", expected in found, found)
        regions = (
            '{"regions": [{"id": 1, "enter": "0x10020", "leave": "0x10018"},'
            ' {"id": 2, "enter": "0x20000", "leave": "0x10018"}]}'
        )
        text = b"flowcheck-cut 1\nsecret 1\nbits 1\nskip 1\npoint 1 0x0001001c x10 rest 0x00000001\nend\n"
        self.write_all({"cut": text, "regions": regions.encode()})
        found = output("lint.py", program, cut, self.path("regions"))[1]
        for expected in ("pass at its leave address 0x00010018", "x10 is not among the outs", "address 0x00020000"):
            self.expect(f"findings: {expected}", expected in found, found)

    def test_stories(self):
        """Pages of the stories' guests, as each compiler makes them, whole, without debug information and stripped."""
        for compiler in compilers():
            for story, guests in STORIES:
                source, (public, secret) = os.path.join(TOP, "examples", story), INPUTS[story]
                for guest in guests:
                    elf = self.built(compiler, os.path.join(source, guest + ".c"))
                    inputs = os.path.join(source, public), os.path.join(source, secret)
                    page, text = self.page(f"{guest} by {compiler}", elf, *inputs)
                    self.pages.append((f"{guest} by {compiler}", page))
                    self.expect(f"lines: {guest} by {compiler}", f"{guest}.c:" in text)
                    if compiler == "gcc":
                        self.symbolizers(elf)
                    for option, has_names in (("--strip-debug", True), ("--strip-all", False)):
                        bare = self.path("bare.elf")
                        words = ["riscv64-unknown-elf-objcopy", option, elf, bare]
                        subprocess.run(words, check=True, stderr=subprocess.DEVNULL)
                        page, text = self.page(f"{guest} by {compiler} {option}", bare, *inputs)
                        self.pages.append((f"{guest} by {compiler} {option}", page))
                        self.expect(f"names: {guest} {option}", (" main" in text) == has_names and ".c:" not in text)

    def symbolizers(self, elf):
        """Each symbolizer must say the same places. Of clang's inlined calls addr2line 2.40 does not know the names."""
        program, seen = ProgramFile(read(elf)), {}
        for name in LLVM + ADDR2LINE:
            if any(os.access(os.path.join(folder, name), os.X_OK) for folder in os.environ["PATH"].split(os.pathsep)):
                words = ["--output-style=GNU", "--addresses", "--functions"] if "llvm" in name else ["-afi"]
                places = Places(elf, program, (), [name, *words, "-e"]).places.values()
                seen[name] = [(place.address, place.function, place.line) for place in places if place.line]
        lists = list(seen.values())
        self.expect(f"symbolizers: {elf}", all(other == lists[0] for other in lists[1:]), " ".join(seen))

    def test_regions(self):
        """Regions around calls with stack, objects and callees: `measure` keeps to them, and the number goes down."""
        self.write_all({"deep.c": DEEP.encode(), "nothing": b""})
        self.write_all({f"s{index}": random.Random(index).randbytes(16) for index in range(8)})
        secrets = [self.path(f"s{index}") for index in range(8)]
        asked = Program(self.program)
        for compiler in compilers():
            elf = self.built(compiler, self.path("deep.c"))
            base = json.loads(asked.answer(["report", elf, self.path("nothing"), secrets[0], "--json"])[1])["bits"]
            for function, most in (("outer", 4), ("inner", base)):
                named = [word for secret in secrets for word in ("--secret", secret)]
                status, text = self.regions_of(elf, function, *named)
                self.expect(f"regions: {function} by {compiler}", status == 0, text)
                self.write_all({"regions": text[text.index("{") :].encode()})
                named = ["--regions", self.path("regions")]
                for secret in secrets:
                    status, report = asked.answer(["report", elf, self.path("nothing"), secret, *named, "--json"])
                    bits = json.loads(report)["bits"] if status == 0 else report
                    what = f"regions: {function} by {compiler} on {secret}"
                    self.expect(what, status == 0 and bits <= most, str(bits))
                page, _ = self.page(f"{function} region", elf, self.path("nothing"), secrets[0], regions=named[1])
                self.pages.append((f"{function} region by {compiler}", page))
            self.suggestion(compiler, elf, secrets)
            for function in ("main", "missing"):
                status, _ = self.regions_of(elf, function, "--secret", secrets[0])
                self.expect(f"no region: {function}", status == 1)
            self.write_all({"tail.c": TAIL.encode()})
            elf = self.built(compiler, self.path("tail.c"))
            for function, is_region in (("middle", True), ("down", True), ("leaf", False)):
                status, text = self.regions_of(elf, function, "--secret", secrets[0])
                self.expect(f"regions: {function} by {compiler}", (status == 0) == is_region, text)

    def test_joined_regions(self):
        """Regions around lines, what each of several secrets adds, and ranges that are too many, which are joined."""
        self.write_all({"spread.c": SPREAD.encode(), "nothing": b"", "low": bytes([3, 1]), "high": bytes([250, 0])})
        for compiler in compilers():
            elf = self.built(compiler, self.path("spread.c"))
            both = ["--secret", self.path("low"), "--secret", self.path("high")]
            told = ("spread", "more than 64 ranges"), ("choose", "high: region 1: "), (LINES, "lines ")
            for what, expected in told:
                status, text = self.regions_of(elf, what, *both)
                self.expect(f"joined: {what} by {compiler}", status == 0 and expected in text, text)
                self.write_all({"regions": text[text.find("{") :].encode()})
                for name in ("low", "high"):
                    words = ["report", elf, self.path("nothing"), self.path(name), "--regions", self.path("regions")]
                    status, report = Program(self.program).answer(words)
                    self.expect(f"joined: {what} by {compiler} on {name}", status == 0, report)

    def regions_of(self, *words):
        """The status and the text of regions.py."""
        return output("regions.py", *words, *(["--flowcheck", self.program] if self.program else []))

    def suggestion(self, compiler, elf, secrets):
        """The page of a secret that parts inside a function names a region around its call."""
        inputs = Inputs(elf, self.path("nothing"), secrets[1])
        self.write_all({"cut": b"flowcheck-cut 1\nsecret 16\nbits 0\nend\n"})
        program = ProgramFile(read(elf))
        seen = Rejection(Program(self.program), inputs, self.path("cut"), "64", program)
        text = text_page(*rejection_page(seen, program, Places(elf, program)))
        self.expect(f"suggestions: {compiler}", "With them the secret is accepted" in text, text)
        self.expect(f"suggestions: {compiler}", "Or a region around the call of inner" in " ".join(text.split()), text)

    def test_windows(self):
        """No page is wider than its window."""
        chromium = Chromium(self.folder)
        if not chromium.name:
            print("no Chromium: the widths of pages are not tried")
            return
        for name, page in self.pages:
            for width in (1280, 390):
                wide = chromium.overflow(page, width)
                self.expect(f"windows: {name} at {width}", wide == [], str(wide))


def bits_in(chosen, choices):
    """How many bits were chosen on a way of a graph, where the choices begin with them; else 0."""
    wanted = [int(value & place != 0) for _, bits, value in chosen for place in places_of(bits)]
    return len(wanted) if choices[: len(wanted)] == wanted else 0


def output(script, *words):
    """The status of a script and what it prints."""
    command = [sys.executable, os.path.join(TOOLS, script), *words]
    done = subprocess.run(command, capture_output=True, text=True, check=False)
    return done.returncode, done.stderr + done.stdout


def spoilt(dice, text):
    """A text with some bytes changed, left out, doubled or exchanged."""
    text = bytearray(text)
    for _ in range(dice.choice([0, 1, 1, 1, 2, 3])):
        place = dice.randrange(len(text))
        kind = dice.randrange(6)
        if kind == 0:
            text[place] = dice.choice(b"0123456789abcdefAFxX* \t\r\n\"{}[],:-")
        elif kind == 1:
            del text[place]
        elif kind == 2:
            text.insert(place, text[place])
        elif kind == 3:
            text.insert(place, dice.choice(b"0 \r\t\n9a"))
        elif kind == 4:
            lines = text.split(b"\n")
            index = dice.randrange(len(lines))
            lines.insert(dice.randrange(len(lines)), lines[index])
            text = bytearray(b"\n".join(lines))
        else:
            text = dice.choice([text[:place], bytearray(b"\xef\xbb\xbf") + text, text + b"end\n", text])
        text = text or bytearray(b"\n")
    return bytes(text)


def main():
    """Runs the tests."""
    parser = argparse.ArgumentParser(description=__doc__.split("\n")[0])
    parser.add_argument("--count", type=int, default=100)
    parser.add_argument("--flowcheck", default=os.environ.get("FLOWCHECK"))
    words = parser.parse_args()
    return run_all(Tests, words.flowcheck, words.count)


if __name__ == "__main__":
    sys.exit(main())
