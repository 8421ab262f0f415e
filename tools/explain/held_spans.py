"""Regions for `bound --hold`, found in the code alone: from behind a guest call to what every way passes before the
next, and around calls of functions. They declare all registers, all data and the stack: the program itself says whether
a region holds, and what is declared and not written stays known."""
import bisect

from code_graph import BEHIND, CodeGraph
from guest import RealGuest, Region
from region_finding import Calls, NoRegion, around_calls
from region_joining import pretty_text
from verdicts import RealRun

STACK_BELOW, MOST_BYTES, WRITTEN, MOST_LOOKED = 4096, 65_536, 3, 200_000
MOST_SPANS, LEAST_PLACES = 12, 3


class Span:
    """A region that may hold: where it is entered and left, how many instructions are inside, and what it is."""

    def __init__(self, enter, leave, inside, words):
        self.enter, self.leave, self.inside, self.words = enter, leave, inside, words

    def key(self):
        """What tells one span from another."""
        return self.enter, self.leave

    def overlaps(self, other):
        """Whether some code is inside of both."""
        return bool(self.inside & other.inside)


def spans_of(program, places):
    """The spans of a program, the widest first."""
    calls, found = Calls(program), {}
    for function in program.functions:
        for span in [*behind_calls(calls, places, function), *whole_calls(calls, function)]:
            found.setdefault(span.key(), span)
    return sorted(found.values(), key=lambda span: -len(calls.reached(span.inside)))[:MOST_SPANS]


def behind_calls(calls, places, function):
    """Spans that begin behind a guest call of a function, or behind a call of what makes one."""
    graph = CodeGraph(calls.program, function)
    for site in range(function.address, function.address + function.size, 4):
        if calls.asks({site}) is None or site + 4 not in graph.follows:
            continue
        chain = [place for place in graph.chain(graph.follows, site + 4)[1:] if place is not BEHIND]
        # What is inside grows along the chain, so that the first place with a guest call before it is found by halves.
        last = bisect.bisect_left(chain, True, key=lambda leave: calls.asks(graph.inside(site + 4, leave)) is not None)
        for leave in {chain[place] for place in (last - 1, last - 2) if 0 <= place < len(chain)}:
            inside = graph.inside(site + 4, leave)
            if len(inside) >= LEAST_PLACES:
                words = f"{function.name} from {places.at(site + 4).text()} to before {places.at(leave).text()}"
                yield Span(site + 4, leave, inside, words)


def whole_calls(calls, function):
    """Spans of the calls of a function."""
    try:
        enclosures = around_calls(calls, [function])
    except NoRegion:
        return []
    return [Span(one.enter, one.leave, one.inside, one.words) for one in enclosures]


def stack_at(image, public, secret, address):
    """The stack pointer where a run first comes to an address; None where it does not soon."""
    guest = RealGuest(image, public, secret, [])
    run = RealRun.__new__(RealRun)
    run.guest, run.turns, run.ending = guest, [], None
    for _ in range(MOST_LOOKED):
        if guest.pc == address:
            return guest.registers[2]
        if run.ending:
            return None
        run.make_turn()
    return None


def data_of(program):
    """The bytes that the program may write, by its sections: addresses and lengths."""
    written = [section for section in program.sections() if section[2] & WRITTEN == WRITTEN]
    return [(section[3], section[5]) for section in written if section[5]]


def declared(program, spans, stacks):
    """The regions of some spans, with the stack pointers at their entries."""
    regions, end = [], program.image.base + (1 << 24)
    for number, (span, stack) in enumerate(zip(spans, stacks), 1):
        begin = stack - STACK_BELOW
        ranges = [(None, address, length) for address, length in data_of(program)]
        ranges.append((None, begin, min(end - begin, 2 * STACK_BELOW)))
        if sum(length for _, _, length in ranges) > MOST_BYTES:
            raise NoRegion(f"the data of the program and its stack have more than {MOST_BYTES:,} bytes")
        regions.append(Region(number, span.enter, span.leave, range(1, 32), (), ranges))
    return regions


def region_text(program, spans, stacks):
    """The file of the regions of some spans."""
    return pretty_text(declared(program, spans, stacks))
