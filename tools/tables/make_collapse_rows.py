#!/usr/bin/env python3
"""Prints what crates/graph_rows must print of its table `collapse`: the answers at the limits of a graph, by its rules,
and what 1,000 random lists of events have together.

The lists are those of the program: the same linear congruential generator makes them. Their graphs are computed here
from the whole list, by the definition: an event other than a pass is passed over where a point that it names has not
passed a mask other than 0 before, and so is an output of region 0; `Implicit` to region 0 leads to the sink."""
MASK = (1 << 64) - 1


def following(state):
    """The state of the generator behind a state."""
    return (state * 6364136223846793005 + 1442695040888963407) & MASK


def below(state, bound):
    """A number below a bound, made of a state."""
    return ((state >> 32) * bound) >> 32


def event(state):
    """The event that a state makes."""
    first, second = (state >> 40) % (1 << 24) % 8, (state >> 44) % (1 << 20) % 8
    region, kind = (state >> 48) % 3, (state >> 56) % 6
    if kind == 0:
        return "pass", first, state >> 16 & 0xFF
    if kind == 1:
        return "pass", first, 0
    if kind == 2:
        return "link", first, second
    if kind == 3:
        return "secret", first, None
    if kind == 4:
        return "implicit", first, region
    return "out", first, region


def graph(events):
    """The capacities and the links of a list of events."""
    capacities, links = {}, set()
    for kind, point, other in events:
        if kind == "pass":
            if other:
                capacities[point] = capacities.get(point, 0) + bin(other).count("1")
        elif point not in capacities or kind == "link" and other not in capacities:
            continue
        elif kind == "link":
            links.add((("point", point), ("point", other)))
        elif kind == "secret":
            links.add(("source", ("point", point)))
        elif kind == "implicit":
            links.add((("point", point), ("relay", other) if other else "sink"))
        elif other:
            links.add((("relay", other), ("point", point)))
    return capacities, links


def sums(lists):
    """How many points, relays, links and bits the graphs of so many lists have together."""
    points = relays = links = bits = 0
    for seed in range(lists):
        state, events = seed, []
        for _ in range(below(following(seed), 60)):
            state = following(state)
            events.append(event(state))
        capacities, made = graph(events)
        points += len(capacities)
        links += len(made)
        relays += len({end for link in made for end in link if end[0] == "relay"})
        bits += sum(capacities.values())
    return f"{lists} lists, {lists} agree: points {points} relays {relays} links {links} bits {bits}"


def edge(name, points, links):
    """A known point and link are taken and so is what is passed over; a point or link more is not, and nothing after
    it."""
    answers = "known taken taken passed over taken taken more limit again limit then limit"
    return f"{name}: {answers}; points {points} relays 0 links {links}"


print(edge("points", 65536, 1))
print(edge("links", 1024, 1048576))
print(edge("both-by-point", 65536, 1048576))
print(edge("both-by-link", 65536, 1048576))
print(sums(1000))
