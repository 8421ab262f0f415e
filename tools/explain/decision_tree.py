"""The decisions of all paths of `bound` as a graph of states, by the model: a state at which bits are chosen is walked
on from once, however many paths come to it."""
from bounds import Unclear, behind
from guest import shown
from instruction_text import instruction_text
from states import PARTS
from walk_tracing import TracedWalk

MOST_STATES, MOST_WAYS, MOST_TURNS = 64, 200, 400_000


class TooMany(Exception):
    """There are more states than are shown, or a path is unclear or comes to the limit of turns."""


class Leaf:
    """How a path ends."""

    def __init__(self, walk):
        self.ending = walk.ending
        self.output = bytes(walk.guest.output)

    def text(self, patterns):
        """The number of its output, or why it stops."""
        kind, what = self.ending
        if kind == "stopped":
            return f"stops: {what}"
        return f"output {next(number for number, one in enumerate(patterns, 1) if one.holds(self.output, what))}"


class State:
    """A state at which bits are chosen: its number, the point of the first bit, and the ways on, each as the points
    with the bits that were chosen, and what comes next. `is_closed` says that all ways are known."""

    def __init__(self, number):
        self.number, self.point, self.ways, self.is_closed = number, None, [], False


class DecisionGraph:
    """The graph of a task: `first` is the first state, or the only leaf."""

    def __init__(self, task):
        self.task, self.known, self.ways, self.turns = task, {}, 0, 0
        try:
            self.first = self.behind_turns(TracedWalk(task, []))
        except Unclear as unclear:
            raise TooMany from unclear

    def behind_turns(self, walk):
        """The next state of a walk, or the leaf to which it comes."""
        while not walk.ending:
            self.turns += 1
            if walk.made == self.task.turns or self.turns > MOST_TURNS:
                raise TooMany
            before = walk.copied(list(walk.choices)) if walk.may_choose() else None
            walk.make_turn()
            if before and len(walk.choices) > len(before.choices):
                return self.state_at(before)
        return Leaf(walk)

    def state_at(self, walk):
        """The state of a walk whose next turn chooses."""
        key = tuple(part(walk) for part in PARTS)
        if key not in self.known:
            if len(self.known) == MOST_STATES:
                raise TooMany
            self.known[key] = state = State(len(self.known) + 1)
            self.follow(walk, state)
        if not self.known[key].is_closed:
            raise TooMany
        return self.known[key]

    def follow(self, walk, state):
        """Follows all ways on from a state."""
        count, path = len(walk.choices), list(walk.choices)
        while path is not None and len(path) >= count:
            way = walk.copied(path)
            way.make_turn()
            places, choices = way.places[count:], list(way.choices)
            state.point, self.ways = state.point or places[0][0], self.ways + 1
            if self.ways > MOST_WAYS:
                raise TooMany
            state.ways.append((chosen_at(places, choices[count:]), self.behind_turns(way)))
            path = behind(choices)
            path = path if path and len(path) > count else None
        state.is_closed = True

    def states(self):
        """The states in the order of their numbers."""
        return sorted(self.known.values(), key=lambda state: state.number)

    def paths(self):
        """How many paths there are, and how many of them stop."""
        return self.total(lambda leaf: (1, int(leaf.ending[0] == "stopped")),
                          lambda state, below: tuple(map(sum, zip(*below))))

    def total(self, of_leaf, of_state):
        """What is made of each leaf, and of each state by what was made of its ways."""
        made = {}

        def of(node):
            if isinstance(node, Leaf):
                return of_leaf(node)
            if node.number not in made:
                made[node.number] = of_state(node, [of(target) for _, target in node.ways])
            return made[node.number]

        return of(self.first)

    def choices(self):
        """How many bits are chosen at each point on one path, at most."""
        def longest(state, below):
            most = {}
            for (chosen, _), counts in zip(state.ways, below):
                own = {}
                for point, bits, _ in chosen:
                    own[point] = own.get(point, 0) + bits.bit_count()
                for point in own | counts:
                    most[point] = max(most.get(point, 0), own.get(point, 0) + counts.get(point, 0))
            return most

        return self.total(lambda leaf: {}, longest)


def chosen_at(places, choices):
    """The points with the bits that were chosen and their values, visit by visit."""
    chosen = []
    for (point, number, bit), value in zip(places, choices):
        if not chosen or chosen[-1][:2] != [point, number]:
            chosen.append([point, number, 0, 0])
        chosen[-1][2] |= bit
        chosen[-1][3] |= bit * value
    return [(point, bits, value) for point, _, bits, value in chosen]


def way_text(chosen):
    """What was chosen, in words."""
    return ", ".join(("not taken", "taken")[value] if point[2] == "de" else f"{point[2]} {shown(value)}"
                     for point, _, value in chosen)


class GraphLines:
    """The graph as lines: each state with its question, and below it the ways on."""

    def __init__(self, graph, patterns, program, places):
        self.graph, self.patterns, self.program, self.places = graph, patterns, program, places

    def question(self, state):
        """What is asked at a state."""
        address = state.point[1]
        text = instruction_text(self.program.instruction(address), address)
        source = self.places.line_of(self.places.at(address)).strip()
        name = f"{self.places.at(address).text()} {text}"
        return f"{name}: {source}" if source else name

    def target(self, node):
        """Where a way leads."""
        return node.text(self.patterns) if isinstance(node, Leaf) else f"state {node.number}"

    def lines(self):
        """All lines; the only leaf where there is no state."""
        if isinstance(self.graph.first, Leaf):
            return [self.target(self.graph.first)]
        lines = []
        for state in self.graph.states():
            lines.append(f"state {state.number}: {self.question(state)}")
            lines += [f"    {way_text(chosen)} -> {self.target(node)}" for chosen, node in state.ways]
        return lines


def address_words(point):
    """A point as it stands in a cut."""
    return f"{point[0]} {shown(point[1])} {point[2]}"
