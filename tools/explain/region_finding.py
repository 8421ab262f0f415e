"""Regions around the calls of functions, around lines of sources and around loops, as they are found in the code."""
from code_graph import CodeGraph
from guest import Region, shown
from instructions import ALL

RETURN = 1
CALLEE_SAVED = {2, 3, 4, 8, 9, *range(18, 28)}
CALLER_SAVED = set(range(1, 32)) - CALLEE_SAVED
MOST_MOVED = 6


class NoRegion(Exception):
    """What is named cannot be a region; the text says why."""


class Calls:
    """The calls in a program file: who calls or jumps to whom, and where."""

    def __init__(self, program):
        self.program, self.sites, self.jumps, self.indirect, self.targets = program, {}, {}, set(), {}
        before = None
        for address in program.addresses():
            instruction = program.instruction(address)
            target = self.target_of(address, instruction, before)
            if target is not None:
                kept = self.sites if instruction.destination == RETURN else self.jumps
                kept.setdefault(target, []).append(address)
                self.targets[address] = target
            elif instruction and instruction.form == "jump_register" and instruction.destination == RETURN:
                self.indirect.add(address)
            before = instruction

    @staticmethod
    def target_of(address, instruction, before):
        """Where a call or a jump goes, JAL or JALR behind its AUIPC; None where the instruction is neither."""
        if instruction is None or instruction.destination not in (0, RETURN):
            return None
        if instruction.form == "jump":
            return (address + instruction.immediate) & ALL
        is_pair = before and before.name == "auipc" and before.destination == instruction.first
        if instruction.form == "jump_register" and is_pair:
            return (address - 4 + before.immediate + instruction.immediate) & ALL
        return None

    def jumps_to(self, function):
        """The jumps from elsewhere to the begin of a function, which are calls without a return."""
        return [site for site in self.jumps.get(function.address, []) if not function.holds(site)]

    def reached(self, places):
        """The places with those of all functions that are called or jumped to from there."""
        found, stack = set(places), sorted(places)
        while stack:
            target = self.targets.get(stack.pop())
            function = None if target is None or target in found else self.program.function_at(target)
            if function:
                more = set(range(function.address, function.address + function.size, 4)) - found
                found |= more
                stack += sorted(more)
        return found

    def asks(self, places):
        """The first guest call in these places and in what is called from there, or None."""
        asked = [place for place in self.reached(places) if is_form(self.program.instruction(place), "call")]
        return min(asked, default=None)

    def written(self, places):
        """The registers that these places, and what is called from there, may write."""
        registers = set()
        for place in self.reached(places):
            instruction = self.program.instruction(place)
            if instruction and instruction.form not in ("store", "branch", "fence", "call", "breakpoint"):
                registers.add(instruction.destination)
            registers |= CALLER_SAVED if place in self.indirect else set()
        return registers - {0}


def is_form(instruction, form):
    """Whether an instruction is of a form."""
    return instruction is not None and instruction.form == form


class Enclosure:
    """A region that is found: where it is entered and left, the places inside, what it is about in words, and whether
    it is a call, which gives back what the calling convention says."""

    def __init__(self, enter, leave, inside, words, is_call):
        self.enter, self.leave, self.inside, self.words, self.is_call = enter, leave, inside, words, is_call

    def bare(self, number):
        """The region with no declaration."""
        return Region(number, self.enter, self.leave)

    def may_write(self, calls):
        """The registers that the code inside may write, as those that it gives back and the others."""
        written = calls.written(self.inside)
        kept = written & CALLEE_SAVED if self.is_call else set()
        return kept, written - kept


def call_enclosure(site, function):
    """The region around a call of a function."""
    return Enclosure(site, site + 4, {site}, f"the call of {function.name} at {shown(site)}", True)


def around_calls(calls, functions):
    """A region for each call of these functions from elsewhere."""
    found = []
    for function in functions:
        jumps = ", ".join(map(shown, calls.jumps_to(function)))
        if jumps:
            hint = "no region can be around that; build with -fno-optimize-sibling-calls"
            raise NoRegion(f"{function.name} is called by a jump at {jumps}, and {hint}")
        asked = calls.asks(range(function.address, function.address + function.size, 4))
        if asked is not None:
            raise NoRegion(f"{function.name} makes a guest call at {shown(asked)}")
        sites = calls.sites.get(function.address, [])
        outer = [site for site in sites if not any(other.holds(site) for other in functions)]
        if not outer:
            raise NoRegion(f"{function.name} is called nowhere; is it made with __attribute__((noinline))?")
        found += [call_enclosure(site, function) for site in outer]
    return found


def around_places(calls, graph, places, words):
    """The region around some places of a function."""
    bounds = graph.bounds(places)
    if bounds is None:
        raise NoRegion(f"{words} have no one place to enter, or none behind them that every way passes")
    inside = graph.inside(*bounds)
    asked = calls.asks(inside)
    if None in {place for inner in inside for place in graph.followers[inner]}:
        raise NoRegion(f"{words}: {graph.function.name} may return before {shown(bounds[1])}")
    if asked is not None:
        raise NoRegion(f"{words}: there is a guest call at {shown(asked)} before {shown(bounds[1])}")
    return Enclosure(*bounds, inside, words, False)


def around_most(calls, graph, places, words):
    """The region around some places of a function, or around all but a few of the first and of the last: compilers move
    single instructions of a line away from it."""
    first_fault = None
    for left_out in range(min(len(places), 2 * MOST_MOVED)):
        for before in range(max(0, left_out - MOST_MOVED), min(left_out, MOST_MOVED) + 1):
            kept = set(places[before : len(places) - (left_out - before)])
            moved = f", without {left_out} of {len(places)} instructions, which stand apart" if left_out else ""
            try:
                return around_places(calls, graph, kept, words + moved)
            except NoRegion as fault:
                first_fault = first_fault or fault
    raise first_fault


def around_lines(calls, places, name, first, last):
    """The regions around the code of some lines of a source, one in each function that has some."""
    program, by_function, found = calls.program, {}, []
    for address in program.addresses():
        place, function = places.at(address), program.function_at(address)
        if function and place.file and place.file.endswith(name) and first <= place.line <= last:
            by_function.setdefault(function.address, set()).add(address)
    for address, inside in sorted(by_function.items()):
        function = program.function_at(address)
        words = f"lines {first} to {last} of {name} in {function.name}"
        found.append(around_most(calls, CodeGraph(program, function), sorted(inside), words))
    if not found:
        raise NoRegion(f"the program has no code of lines {first} to {last} of {name}; is it made with -g?")
    return found


def read_name(calls, places, name):
    """The regions of a name: of a function, or of FILE:LINE or FILE:LINE-LINE."""
    file, colon, lines = name.rpartition(":")
    first, _, last = lines.partition("-")
    if colon and first.isdigit() and (last or first).isdigit():
        return around_lines(calls, places, file, int(first), int(last or first))
    functions = calls.program.functions_named(name)
    if not calls.program.functions:
        raise NoRegion(f"{name} is not found: the program has no symbols; link it without -s, and do not strip it")
    if not functions:
        raise NoRegion(f"{name} is no function of the program; a compiler may have put its body where it is called")
    return around_calls(calls, functions)


def around_bounds(calls, region):
    """The region of a file, as it is found in the code: a call, or some places of a function."""
    program, words = calls.program, f"region {region.number}, {shown(region.enter)} to {shown(region.leave)}"
    function = program.function_at(region.enter)
    if region.leave == region.enter + 4:
        return Enclosure(region.enter, region.leave, {region.enter}, words, region.enter in calls.targets)
    if not function or not function.holds(region.leave):
        return Enclosure(region.enter, region.leave, {region.enter}, words, False)
    inside = CodeGraph(program, function).inside(region.enter, region.leave)
    return Enclosure(region.enter, region.leave, inside, words, False)


def enclosures_of(program, places, names):
    """The regions of all names, by the addresses at which they are entered."""
    calls, by_enter = Calls(program), {}
    for name in names:
        for enclosure in read_name(calls, places, name):
            if enclosure.enter in by_enter:
                raise NoRegion(f"{enclosure.words} and {by_enter[enclosure.enter].words} are entered at one place")
            by_enter[enclosure.enter] = enclosure
    return [enclosure for _, enclosure in sorted(by_enter.items())]
