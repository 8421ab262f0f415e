"""Regions that are tried one after another: each is learnt and measured, and what lowers the number most is kept."""
import concurrent.futures
import os
import threading

from certificates import Certificate
from code_graph import CodeGraph
from cuts import read_cut
from region_finding import Calls, NoRegion, around_calls, around_places
from region_joining import Declaration, learn_each, pretty_text
from tool import Progress, text_file

BETRAYING = {"ad", "de", "nr", "a0", "a1", "a2"}
MOST_TIES, MOST_CHECKED = 8, 64


class Candidate:
    """Regions that are tried together: the calls of a function, or a loop. `bits` is the number with it, when it was
    tried last."""

    def __init__(self, words, place, enclosures, inside):
        self.words, self.place, self.enclosures, self.inside, self.bits = words, place, enclosures, inside, None

    def bounds(self):
        """What tells one candidate from another."""
        return frozenset((one.enter, one.leave) for one in self.enclosures)


def candidates_of(program, places, passed):
    """The calls of each function and each loop inside which secret bits pass, but those with a guest call inside; those
    first in which a run decides most by them. `passed` has the points at which they pass, and how many."""
    calls, found = Calls(program), {}
    addresses = {point[1] for point in passed}
    for function in program.functions:
        for words, make in ways_of(calls, places, function):
            try:
                enclosures = make()
            except NoRegion:
                continue
            inside = set().union(*(calls.reached(one.inside) for one in enclosures))
            candidate = Candidate(words, places.at(enclosures[0].enter).text(), enclosures, inside)
            if inside & addresses:
                found.setdefault(candidate.bounds(), candidate)
    return sorted(found.values(), key=lambda candidate: -weight_of(candidate, passed))


def ways_of(calls, places, function):
    """The calls of a function and its loops, in words and as what finds their regions."""
    yield f"calls of {function.name}", lambda: around_calls(calls, [function])
    graph = CodeGraph(calls.program, function)
    for _, inside in sorted(graph.loops().items()):
        words = f"loop in {lines_text(places, inside, function)}"
        yield words, lambda inside=inside, words=words: [around_places(calls, graph, inside, words)]


def weight_of(candidate, passed):
    """How many bits pass inside where a run decides by them."""
    return sum(bits for point, bits in passed.items() if point[2] in BETRAYING and point[1] in candidate.inside)


def lines_text(places, inside, function):
    """The lines of some places of a function."""
    lines = [(place.file, place.line) for place in map(places.at, sorted(inside)) if place.file]
    if not lines:
        return f"{function.name} at 0x{min(inside):08x}"
    files = [file for file, _ in lines]
    file = max(sorted(set(files)), key=files.count)
    numbers = sorted(line for other, line in lines if other == file)
    return f"{function.name} {os.path.basename(file)}:{numbers[0]}-{numbers[-1]}"


def passed_points(asked, inputs, secret):
    """The points at which secret bits pass in a run without regions, and how many."""
    words = [inputs.program, inputs.public, secret, *inputs.without("--regions", "--paths")]
    return {point: capacity for point, capacity, _, _ in Certificate(asked.text(["graph", *words], NoRegion)).points}


def joined_regions(learner, calls, chosen, secrets, is_lenient=False):
    """The regions of some candidates, as all secrets need them, but those in which nothing is written. Secrets whose
    runs do not exit are passed over where it is lenient."""
    enclosures = sorted((one for candidate in chosen for one in candidate.enclosures), key=lambda one: one.enter)
    declarations = [Declaration(one.bare(number)) for number, one in enumerate(enclosures, 1)]
    for _ in learn_each(learner, declarations, secrets, secrets[1:] if is_lenient else []):
        pass
    written = [pair for pair in zip(enclosures, declarations) if not pair[1].is_empty()]
    for enclosure, declaration in written:
        declaration.add_code(*enclosure.may_write(calls), enclosure.is_call)
    return [declaration.whole() for _, declaration in written]


class Trial:
    """Candidates together, as they were learnt and measured: their regions, the number and the text of the cut."""

    def __init__(self, chosen, regions, bits, cut):
        self.chosen, self.regions, self.bits, self.cut, self.accepted = chosen, regions, bits, cut, None


class Search:
    """A search for regions. All secrets are learnt from, and the first is measured."""

    def __init__(self, learner, secrets, rules, most, jobs):
        self.learner, self.secrets, self.rules, self.most = learner, secrets, rules, most
        self.calls, self.measured, self.lock = Calls(learner.program), 0, threading.Lock()
        self.progress, self.pool = Progress(), concurrent.futures.ThreadPoolExecutor(jobs)

    def ask(self, command, *words):
        """The status and the text of a command on the program."""
        named = [command, self.learner.program_name, self.learner.public_name, *words]
        return self.learner.asked.answer([*named, "--turns", str(self.learner.limit)])

    def tried(self, chosen):
        """Candidates together as a trial; None where they cannot be learnt or measured."""
        try:
            regions = joined_regions(self.learner, self.calls, chosen, self.secrets)
        except NoRegion:
            return None
        with self.lock:
            self.measured += 1
            self.progress.show(f"measurement {self.measured:,} of at most {self.most:,}")
        with text_file(pretty_text(regions), ".json") as name:
            status, cut = self.ask("measure", self.secrets[0], "--regions", name, *self.rules)
        return None if status else Trial(chosen, regions, read_cut(cut.encode()).bits, cut)

    def count_accepted(self, trial):
        """Counts how many of the other secrets are accepted with the cut and the number of a trial."""
        others, trial.accepted = self.secrets[1:], 0
        with text_file(pretty_text(trial.regions), ".json") as name, text_file(trial.cut) as cut:
            for first in range(0, len(others), MOST_CHECKED):
                some = others[first : first + MOST_CHECKED]
                _, text = self.ask("check", cut, str(trial.bits), *some, "--regions", name)
                trial.accepted += text.count("\naccepted ") + text.startswith("accepted ")
        return trial.accepted

    def round(self, best, candidates):
        """The best trial of those with one candidate more; the best one so far where none lowers the number."""
        tried = candidates[: max(self.most - self.measured, 0)]
        trials = list(self.pool.map(lambda candidate: self.tried([*best.chosen, candidate]), tried))
        for candidate, trial in zip(tried, trials):
            candidate.bits = trial.bits if trial else candidate.bits
        found = [trial for trial in trials if trial and trial.bits < best.bits]
        lowest = min((trial.bits for trial in found), default=best.bits)
        ties = [trial for trial in found if trial.bits == lowest][:MOST_TIES]
        return max(ties, key=self.count_accepted, default=best)

    def search(self, candidates):
        """The trials that were kept, the first of which has no region."""
        kept = [self.tried([])]
        if kept[0] is None:
            raise NoRegion("the run is not measured")
        self.count_accepted(kept[0])
        while self.measured < self.most:
            rest = [candidate for candidate in candidates if candidate not in kept[-1].chosen]
            rest.sort(key=lambda candidate: (candidate.bits is None, candidate.bits or 0))
            best = self.round(kept[-1], rest)
            if best is kept[-1]:
                break
            kept.append(best)
        return kept
