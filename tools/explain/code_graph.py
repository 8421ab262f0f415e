"""The ways through the code of a function: what follows each instruction, loops, and what all ways pass."""
from instructions import ALL

RETURN = 1
BEHIND = None


def followers_of(program, function, address):
    """The addresses at which it may go on behind an instruction; a call goes on behind it, and `BEHIND` stands for
    what is no longer in the function."""
    instruction, following = program.instruction(address), address + 4
    if instruction is None or instruction.form == "breakpoint":
        return [BEHIND]
    target = (address + instruction.immediate) & ALL
    found = [following]
    if instruction.form == "branch":
        found = [following, target]
    elif instruction.form == "jump" and instruction.destination != RETURN:
        found = [target]
    elif instruction.form == "jump_register" and instruction.destination != RETURN:
        found = [BEHIND]
    return [place if place is not BEHIND and function.holds(place) else BEHIND for place in found]


def dominators(root, followers):
    """For each place that is reached from the root the nearest other place that every way to it passes."""
    order, seen, stack = [], {root}, [(root, iter(followers.get(root, ())))]
    while stack:
        place, rest = stack[-1]
        following = next((other for other in rest if other not in seen), root)
        if following != root:
            seen.add(following)
            stack.append((following, iter(followers.get(following, ()))))
        else:
            order.append(stack.pop()[0])
    ranks, nearest = {place: rank for rank, place in enumerate(order)}, {root: root}
    before = reversed_ways({place: followers.get(place, ()) for place in order})
    is_changed = True
    while is_changed:
        is_changed = False
        for place in order[-2::-1]:
            known = [other for other in before[place] if other in nearest]
            found = known[0]
            for other in known[1:]:
                found = common(found, other, nearest, ranks)
            is_changed |= nearest.get(place, place) != found
            nearest[place] = found
    return nearest


def common(first, second, nearest, ranks):
    """The nearest place that every way to both places passes."""
    while first != second:
        if ranks[first] < ranks[second]:
            first = nearest[first]
        else:
            second = nearest[second]
    return first


def reversed_ways(followers):
    """The places before each place."""
    before = {}
    for place, found in followers.items():
        for other in found:
            before.setdefault(other, []).append(place)
    return before


class CodeGraph:
    """The code of a function."""

    def __init__(self, program, function):
        self.program, self.function = program, function
        addresses = range(function.address, function.address + function.size, 4)
        self.followers = {address: followers_of(program, function, address) for address in addresses}
        self.before = reversed_ways(self.followers)
        self.leads, self.follows = dominators(function.address, self.followers), dominators(BEHIND, self.before)

    def chain(self, nearest, place):
        """A place and what every way to it passes, the nearest first."""
        found = [place]
        while nearest.get(found[-1], found[-1]) != found[-1]:
            found.append(nearest[found[-1]])
        return found

    def meeting(self, nearest, places):
        """What every way to all of these places passes, the nearest first."""
        chains = [self.chain(nearest, place) for place in places]
        common_places = set(chains[0]).intersection(*chains[1:])
        return [place for place in chains[0] if place in common_places]

    def bounds(self, places):
        """Where all of these places are entered, and where it goes on behind them; None where that is nowhere."""
        reached = [place for place in sorted(places) if place in self.leads and place in self.follows]
        if not reached:
            return None
        enter = self.meeting(self.leads, reached)[0]
        behind = [place for place in self.meeting(self.follows, reached) if place not in places]
        return (enter, behind[0]) if behind and behind[0] not in (BEHIND, enter) else None

    def inside(self, enter, leave):
        """The places that are reached from the entry before the leave."""
        found, stack = set(), [enter]
        while stack:
            place = stack.pop()
            if place not in found and place not in (leave, BEHIND):
                found.add(place)
                stack += self.followers.get(place, [])
        return found

    def loops(self):
        """The places of each loop, by its first place."""
        found = {}
        for place, others in self.followers.items():
            for head in others:
                if head is not BEHIND and place in self.leads and head in self.chain(self.leads, place):
                    found.setdefault(head, {head}).update(self.round(head, place))
        return found

    def round(self, head, last):
        """The places from which a loop's last place is reached and not its first one."""
        found, stack = set(), [last]
        while stack:
            place = stack.pop()
            if place not in found and place != head:
                found.add(place)
                stack += [other for other in self.before.get(place, []) if other in self.leads]
        return found
