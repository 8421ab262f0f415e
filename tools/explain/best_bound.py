"""The best bound that is found within some seconds: ways to a bound are tried one after another, first with few walks
and then with more, and the one with the fewest outputs is kept."""
import os
import random
import tempfile
import time

from bound_words import least_count, power_words
from bounding import FEW_PATHS, SEARCH_RULES, Bounding, NoBound, Search
from cuts import Cut
from enclosing import candidates_of, joined_regions, passed_points
from held_spans import region_text, spans_of, stack_at
from region_finding import Calls, NoRegion
from region_joining import Learner, pretty_text
from run_facts import Inputs, read
from sampling import MOST_TRUSTED, Sample, Trust, drawn
from source_lines import Places
from tool import OutOfTime, Progress, within
from verdicts import MOST_BUDGET
from walk_tracing import MakingWalk

ROUNDS, LEAST_SECONDS, MOST_PATHS = 100, 2, 1 << 20
MEASURED, FEW_TURNS, MOST_TURNS = "with the cut of", "refused 4 turns", 20_000_000
# How many walks are allowed one after the other, and which part of all seconds one search with so many may take.
SHARES = {FEW_PATHS: 1 / 15, 8 * FEW_PATHS: 1 / 10, MOST_PATHS: 1 / 2}
LIMITS = list(SHARES)
FEW, WALKS, WALK_TURNS, MOST_BITS = (1, 8, 12), 3, 50_000, 4096
MOST_SHARED, MOST_CANDIDATES, LEARNT, MOST_ROUNDS = 6, 12, 16, 5


class TimeIsOver(Exception):
    """The seconds of the whole search are over."""


class Way:
    """A way to a bound: its words, the asking, and the cuts that it begins with, each tried with `few` (see `Search`).
    `answers` are the last ones, by the names of the beginnings; `trust` is that in its regions. One that is late goes
    on behind the others."""

    is_late = False

    def __init__(self, words, bounding, beginnings, few=0, regions=None, trust=None):
        self.words, self.bounding, self.few, self.regions, self.trust = words, bounding, few, regions, trust
        self.cuts, self.answers = dict(beginnings), {}

    def bits(self, name):
        """The bits that were wanted from a beginning until now."""
        return self.answers[name][0].budget if name in self.answers else 0

    def state(self, name):
        """What a search goes on with from a beginning; it need not be tried twice."""
        cut = self.answers[name][0].cut
        return str(self.bounding.inputs.options), str(cut.skip), str(sorted(cut.points.items()))


class Found:
    """An answer that was found, bounded or not, with the walk of its unclear path, by a way."""

    def __init__(self, way, answer, walk):
        self.way, self.answer, self.walk = way, answer, walk

    def outputs(self):
        """How many outputs there are at most; None where nothing is known."""
        return least_count(self.answer.numbers) if self.answer.is_bounded else None

    def rank(self):
        """By what the best is chosen: fewest outputs, and of all secrets sooner than with regions or stops."""
        outputs = self.outputs()
        effort = 0 if self.answer.is_bounded else -self.answer.paths
        return outputs is None, outputs or 0, not self.answer.is_of_all(), effort


class BestBound:
    """The search. `secrets` are names of files, of one length; none where a length alone is known. `tell` is told of
    what is tried and found. After `search`, `best` is what was found best, `measured` the bits of the secrets, and
    `sample` what random secrets have shown."""

    def __init__(self, asked, inputs, program, secrets, length, is_any_public, seconds, tell, keep=lambda _: None):
        self.asked, self.inputs, self.program, self.secrets, self.length = asked, inputs, program, secrets, length
        self.is_any_public, self.tell, self.keep = is_any_public, tell, keep
        self.begin, self.seconds = time.monotonic(), seconds
        self.best, self.best_of_all, self.measured, self.calls, self.progress = None, None, None, 0, Progress()
        self.ways, self.tried, self.why = [], set(), "every way was tried"
        self.folder = tempfile.TemporaryDirectory(prefix="best-")
        self.known = [read(name) for name in secrets]
        self.sample = Sample(program, inputs, length, self.known, is_any_public)

    def left(self):
        """The seconds that are left."""
        return self.seconds - (time.monotonic() - self.begin)

    def slice(self, limit=FEW_PATHS):
        """The seconds for the next piece of work, a search with at most so many walks."""
        if self.left() <= 0:
            raise TimeIsOver
        return min(self.left(), max(self.seconds * SHARES[limit], LEAST_SECONDS))

    def is_exact(self):
        """Whether as many outputs were seen as there are at most."""
        return self.best and self.best.outputs() == len(self.sample.outputs)

    def search(self):
        """Tries the ways, and says why it ended."""
        try:
            self.try_all()
        except TimeIsOver:
            self.why = f"the {self.seconds:g} seconds are over"
        except KeyboardInterrupt:
            self.why = "it was stopped"
        finally:
            self.progress.show("")
            self.end_sample()
        return self.best

    def end_sample(self):
        """Lets the runs on random secrets come to their end, where there is time."""
        try:
            if self.why != "it was stopped" and not self.is_exact():
                with within(max(self.left(), LEAST_SECONDS)):
                    self.sample.finish()
        except (OutOfTime, KeyboardInterrupt):
            pass
        finally:
            self.sample.stop()

    def try_all(self):
        """Tries all ways with few walks, those without regions first, and goes on with more."""
        for make in (self.plain_ways, self.held_ways, self.upstream_ways):
            self.add_ways(make)
        self.go_on(LIMITS[1])
        self.add_ways(self.region_ways)
        for limit in LIMITS[1:]:
            self.go_on(limit)
        self.why = "no fewer outputs can be" if self.is_exact() else self.why

    def add_ways(self, make):
        """Adds the ways that are made, each of which is tried at once with few walks, until the bound is exact."""
        if self.is_exact():
            return
        for way in make():
            self.ways.append(way)
            for name in list(way.cuts):
                self.try_way(way, name, LIMITS[0])
            if self.is_exact():
                return

    def go_on(self, limit):
        """Goes on with all ways that may come to an answer with so many walks, those with the fewest bits first."""
        waiting = [(way, name) for way in self.ways for name in way.cuts
                   if name not in way.answers or way.answers[name][0].is_waiting()]
        # Other tables of rules seldom come to an answer with more walks: they have their turn at the end.
        waiting = [pair for pair in waiting if limit == MOST_PATHS or not pair[0].is_late]
        for way, name in sorted(waiting, key=lambda pair: (pair[0].is_late, pair[0].bits(pair[1]))):
            if name not in way.answers or (way.state(name), limit) not in self.tried:
                self.try_way(way, name, limit)

    def try_way(self, way, name, limit):
        """Tries a way from one of its beginnings, with at most so many walks."""
        before = way.answers.get(name)
        paths = self.paths_for(before, limit)
        if self.is_exact() or before and paths <= before[0].paths:
            return
        if before:
            self.tried.add((way.state(name), limit))
        told = f"{way.words}, {name}, at most {paths:,} walks"
        self.show(told)
        try:
            with within(self.slice(limit)):
                cut = before[0].cut if before else way.cuts[name]
                answer, walk = Search(way.bounding, ROUNDS, paths, self.count, way.few).search(cut)
        except OutOfTime:
            self.tell(f"{told}: no answer in time")
            if limit == LIMITS[0]:
                del way.cuts[name]
            return
        except NoBound as fault:
            self.tell(f"{told}: {fault}")
            del way.cuts[name]
            return
        answer.paths = paths
        way.answers[name] = answer, walk
        self.note(told, Found(way, answer, walk))

    @staticmethod
    def paths_for(before, limit):
        """How many walks are allowed: no more than there can be paths, by the bits of the budget."""
        return min(limit, 1 << min(before[0].budget, 20)) if before and before[0].budget else limit

    def note(self, told, found):
        """Keeps an answer where it is the best, and tells of it."""
        answer = found.answer
        if answer.is_bounded:
            paths = answer.numbers["paths"]
            told += f": {power_words(found.outputs())} outputs, {'-' if paths is None else format(paths, ',')} paths"
        else:
            answer.cut.bits = answer.budget
            told += f": unclear: {answer.reason}"
        self.tell(told)
        if not answer.is_bounded and found.way.bounding.holds:
            return
        if self.best is None or found.rank() < self.best.rank():
            self.best = found
            self.keep(self)
        if answer.is_of_all() and (self.best_of_all is None or found.rank() < self.best_of_all.rank()):
            self.best_of_all = found

    def count(self, _):
        """Counts a step of a search."""
        self.calls += 1

    def show(self, text):
        """Shows what is tried, on a terminal."""
        least = "no number yet"
        if self.best and self.best.answer.is_bounded:
            least = f"{power_words(self.best.outputs())} outputs until now"
        seen = f"{len(self.sample.outputs):,} outputs of {self.sample.run:,} random secrets"
        self.progress.show(f"{self.left():.0f} s left: {text}; {least}; {seen}"[:200])

    def bounding(self, regions=None, rules=None, holds=False):
        """The asking, perhaps with another region file or table; without one it is that of searches."""
        options = self.inputs.without(*["--regions"] * bool(regions), *["--rules"] * bool(rules))
        options += (["--regions", regions] if regions else []) + (["--rules", rules] if rules else [])
        options += [] if "--rules" in options else ["--rules", SEARCH_RULES]
        inputs = Inputs(self.inputs.program, self.inputs.public, None, options)
        return Bounding(self.asked, inputs, self.program, self.is_any_public, holds)

    def plain_ways(self):
        """Without regions, by each table of the mask rules."""
        named = self.inputs.option("--rules")
        for rules in [named] if named else (SEARCH_RULES, "2", "1"):
            words = f"table {rules}" + ("" if self.inputs.option("--regions") else ", no region")
            bounding, beginnings = self.begun(words, rules)
            if self.measured is None and beginnings[0][0].startswith(MEASURED):
                self.measured = beginnings[0][1].bits
            way = Way(words, bounding, beginnings)
            way.is_late = rules not in (SEARCH_RULES, named)
            yield way

    def begun(self, words, rules):
        """The asking by a table of rules, and the cuts that a way begins with; one without a point where the secrets
        can't be measured in time. A run that wants more turns gets as many as there may be."""
        bounding = self.bounding(rules=rules)
        try:
            with within(self.slice()):
                return bounding, self.beginnings(bounding)
        except OutOfTime:
            self.tell(f"{words}: the secrets are not measured in time")
        except NoBound as fault:
            told = str(fault).splitlines()[0]
            if told.startswith(FEW_TURNS) and not self.inputs.option("--turns"):
                self.inputs.options += ["--turns", str(MOST_TURNS)]
                self.tell(f"A run wants more than {bounding.turns:,} turns: each gets {MOST_TURNS:,}")
                return self.begun(words, rules)
            self.tell(f"{words}: the secrets are not measured: {told}")
        return bounding, [("without a point", bounding.empty(self.length))]

    def beginnings(self, bounding):
        """The cuts that a way begins with."""
        empty = [("without a point", bounding.empty(self.length))]
        return bounding.beginnings(self.secrets) if self.secrets else empty

    def upstream_ways(self):
        """Cuts at the places where the values are made by which is decided."""
        bounding, name = self.bounding(), "upstream of decisions"
        for few in FEW:
            told = f"{name}, where values have at most {few} bit{'s' * (few > 1)}"
            yield Way(told, bounding, [("without a point", bounding.empty(self.length))], few)
        for number, cut in enumerate(self.shared_cuts(bounding), 1):
            yield Way(f"upstream, a value that decides more than once ({number})", bounding, [("with it", cut)])

    def shared_cuts(self, bounding):
        """Cuts at one value of a few bits of which choices are made; those of which most are made first."""
        if self.best is None:
            return []
        uses = {}
        try:
            with within(self.slice()):
                for number in range(WALKS):
                    dice = random.Random(f"making {number}")
                    task = bounding.task(self.best.answer.cut, MOST_BUDGET)
                    task.turns = min(task.turns, WALK_TURNS)
                    walk = MakingWalk(task, [dice.randrange(2) for _ in range(MOST_BITS)]).run()
                    for origin in walk.uses.values():
                        # Public bytes that may be any have no visit at which they could cross.
                        for passing, mask in ((key, mask) for key, mask in origin.items() if len(key) == 2):
                            count, whole = uses.get(passing, (0, 0))
                            uses[passing] = count + 1, whole | mask
        except OutOfTime:
            return []
        # Of values of which as many choices are made the one that was made last is made of the others.
        last = {count: (passing, mask) for passing, (count, mask) in uses.items() if count > WALKS}
        return [self.cut_at(*passing, mask) for _, (passing, mask) in sorted(last.items(), reverse=True)[:MOST_SHARED]]

    def cut_at(self, point, visit, mask):
        """The cut with one point, at which bits cross at one visit alone."""
        runs = ([(visit - 1, 0)] if visit > 1 else []) + [(1, mask)]
        return Cut(self.length, 0, [], {point: (runs, [(1, 0)])})

    def region_ways(self):
        """Regions around calls and loops: each by itself, then each beside the best that was found."""
        if self.inputs.option("--regions") or not self.program.functions:
            return
        chosen, candidates = [], self.candidates()
        while candidates and not self.is_exact():
            tried = []
            for candidate in candidates:
                way = self.region_way([*chosen, candidate])
                if way:
                    before = self.best
                    yield way
                    tried += [(self.best.rank(), candidate)] if self.best is not before else []
            if not tried:
                return
            chosen.append(min(tried, key=lambda item: item[0])[1])
            candidates = [one for one in candidates if one not in chosen]

    def held_ways(self):
        """Regions that are to hold, where the program has a flag for that: each span by itself, the widest first, and
        then all that lie apart together."""
        is_asked = self.program.functions and not self.inputs.option("--regions")
        if not is_asked or not self.asked.knows("bound", "--hold"):
            return
        spans, held = spans_of(self.program, Places(self.inputs.program, self.program)), []
        for span in spans:
            before = self.best
            way = self.held_way([span])
            if way:
                yield way
                held += [span] if self.best is not before else []
        apart = []
        for span in held:
            apart += [] if any(span.overlaps(other) for other in apart) else [span]
        way = self.held_way(apart) if len(apart) > 1 else None
        if way:
            yield way

    def held_way(self, spans):
        """The way with some spans as regions that are to hold; None where no run comes to one of them soon."""
        secret = self.known[0] if self.known else bytes(self.length)
        try:
            with within(self.slice()):
                stacks = [stack_at(self.program.image, read(self.inputs.public), secret, span.enter) for span in spans]
            text = None if None in stacks else region_text(self.program, spans, stacks)
        except (OutOfTime, NoRegion):
            return None
        if text is None:
            return None
        name = self.written(f"held{len(self.ways)}", text.encode())
        bounding = self.bounding(regions=name, holds=True)
        words = " and ".join(f"held: {span.words}" for span in spans)
        return Way(words, bounding, [("without a point", bounding.empty(self.length))], regions=text)

    def candidates(self):
        """The candidates for regions, by the run on the first secret or on zeros."""
        places = Places(self.inputs.program, self.program)
        try:
            with within(self.slice()):
                passed = passed_points(self.asked, self.inputs, self.first_secret())
        except (OutOfTime, NoBound, NoRegion):
            return []
        return candidates_of(self.program, places, passed)[:MOST_CANDIDATES]

    def first_secret(self):
        """The name of the first secret, or of one of zeros."""
        return self.secrets[0] if self.secrets else self.written("zeros", bytes(self.length))

    def written(self, name, data):
        """The name of a file that is written."""
        path = os.path.join(self.folder.name, name)
        with open(path, "wb") as file:
            file.write(data)
        return path

    def region_way(self, chosen):
        """The way with the regions of some candidates, as they are learnt of random secrets until none breaks one; None
        where they cannot be learnt."""
        words = " and ".join(f"region: {one.words}" for one in chosen)
        self.show(words)
        learner = Learner(self.asked, self.program, (self.inputs.program, self.inputs.public), self.turns())
        secrets = [*self.known, *drawn(LEARNT, self.length, self.known, read(self.inputs.public), seed=3)]
        tried = drawn(MOST_TRUSTED, self.length, self.known, read(self.inputs.public))
        name = os.path.join(self.folder.name, f"regions{len(self.ways)}")
        try:
            with within(self.slice()):
                for _ in range(MOST_ROUNDS):
                    names = [self.written(f"learnt{number}", secret) for number, secret in enumerate(secrets)]
                    regions = joined_regions(learner, Calls(self.program), chosen, names, is_lenient=True)
                    with open(name, "w", encoding="utf-8") as file:
                        file.write(pretty_text(regions))
                    bounding = self.bounding(regions=name)
                    trust = Trust(self.asked, bounding.inputs, self.program, tried)
                    if not trust.breaking or not regions:
                        break
                    secrets += trust.breaking[:LEARNT]
                beginnings = self.beginnings(bounding) if regions else []
        except (OutOfTime, NoRegion, NoBound):
            return None
        return Way(words, bounding, beginnings, regions=pretty_text(regions), trust=trust) if regions else None

    def turns(self):
        """The limit of turns."""
        return self.bounding().turns
