#!/usr/bin/env python3
"""Makes the table `flow` of crates/graph_rows from networkx, in its `stdin` and its `stdout`, in the folder that is
named.

A row of `stdin` is a graph, as words in this order:

    8 8 1         for each point its capacity
    r5 r9         the relays, by region
    s-p0 p0-r5    the links, from the source `s`, a point or a relay, to a point, a relay or the sink `t`

Points are numbered from 0 in the order of their words. The row of `stdout` is the value of a maximum flow, and for
each point and then each relay where it stands in the least minimum side: `s` inside, `t` outside, `m` and `o` for a
point of which the first half alone is inside, or the second.

Each value and each residual network is networkx's; the least minimum side is what its source still reaches. Each side
is tried again: no open link leaves it, its capacity is the value, and no smaller side of that capacity is found by
leaving out what does not lead on."""
import argparse
import random
from pathlib import Path

import networkx
from networkx.algorithms.flow import edmonds_karp, shortest_augmenting_path
from put_rows import put

SOURCE, SINK = "s", "t"


def key(end):
    """The order of ends: the source, the points, the relays, the sink."""
    if end == SOURCE:
        return (0, 0)
    if end == SINK:
        return (3, 0)
    return (1 if end[0] == "p" else 2, int(end[1:]))


def leaving(end):
    """The node that links from an end leave."""
    return end + ".out" if end[0] == "p" else end


def entering(end):
    """The node that links to an end come to."""
    return end + ".in" if end[0] == "p" else end


def network(capacities, relays, links):
    """A graph as networkx has it."""
    graph = networkx.DiGraph()
    graph.add_nodes_from([SOURCE, SINK])
    graph.add_nodes_from(relays)
    for index, capacity in enumerate(capacities):
        graph.add_edge(f"p{index}.in", f"p{index}.out", capacity=capacity)
    for source, target in links:
        if leaving(source) != entering(target):
            graph.add_edge(leaving(source), entering(target))
    return graph


def answer(capacities, relays, links):
    """What must be printed of a graph: its value and its least minimum side."""
    graph = network(capacities, relays, links)
    residual = edmonds_karp(graph, SOURCE, SINK)
    value = residual.graph["flow_value"]
    assert value == shortest_augmenting_path(graph, SOURCE, SINK).graph["flow_value"]
    open_edges = [(a, b) for a, b, data in residual.edges(data=True) if data["flow"] < data["capacity"]]
    reached = networkx.DiGraph(open_edges)
    reached.add_node(SOURCE)
    side = networkx.descendants(reached, SOURCE) | {SOURCE}
    assert SINK not in side
    assert all("capacity" in graph[a][b] or b in side for a in side for b in graph[a])
    cut = sum(graph[a][b]["capacity"] for a in side for b in graph[a] if b not in side)
    assert cut == value
    letters = ""
    for index in range(len(capacities)):
        first, second = f"p{index}.in" in side, f"p{index}.out" in side
        letters += {(True, True): "s", (True, False): "m", (False, True): "o", (False, False): "t"}[first, second]
    for relay in relays:
        letters += "s" if relay in side else "t"
    return f"{value} {letters}"


def row(capacities, relays, links):
    """The row of a graph, and what must be printed of it."""
    ordered = sorted(set(links), key=lambda link: (key(link[0]), key(link[1])))
    words = [str(capacity) for capacity in capacities] + relays + [f"{a}-{b}" for a, b in ordered]
    return " ".join(words), answer(capacities, relays, ordered)


def chosen(dice):
    """A random graph: few or many points, with relays, cycles and self links, and capacities of many kinds."""
    count = dice.choice([1, 2, 3, 5, 8, 12, 20, 35, 60])
    most = dice.choice([1, 2, 8, 32, 1000, 2**48 - 1])
    capacities = [dice.randint(1, most) for _ in range(count)]
    relays = [f"r{region}" for region in sorted(dice.sample(range(0, 65536), dice.choice([0, 0, 1, 2, 5])))]
    points = [f"p{index}" for index in range(count)]
    links = set()
    for _ in range(dice.choice([1, 2, count, count])):
        links.add((SOURCE, dice.choice(points)))
    for _ in range(dice.choice([0, 1, 2, count, count])):
        links.add((dice.choice(points + relays), SINK))
    for _ in range(dice.choice([count, 2 * count, 4 * count])):
        links.add((dice.choice(points + relays), dice.choice(points + relays)))
    return capacities, relays, links


def chain(count):
    """So many points in a line."""
    points = [f"p{index}" for index in range(count)]
    links = [(SOURCE, points[0]), (points[-1], SINK)] + list(zip(points, points[1:]))
    return [3] * count, [], links


def rows():
    """All graphs, as rows."""
    join = [(SOURCE, "p0"), (SOURCE, "p1"), ("p0", "p2"), ("p1", "p2"), ("p2", SINK)]
    yield row([3, 2, 4], [], join)
    yield row([3, 2, 5], [], join)
    yield row([8], [], [(SOURCE, "p0"), ("p0", SINK), ("p0", "p0")])
    yield row([8], [], [])
    links = [(SOURCE, "p0"), (SOURCE, "p1"), ("p0", "r65535"), ("p1", SINK), ("r65535", SINK)]
    yield row([2**48 - 1] * 3, ["r0", "r65535"], links)
    yield row(*chain(60))
    dice = random.Random(20261127)
    for _ in range(240):
        yield row(*chosen(dice))


def main():
    """Writes the rows and the answers."""
    parser = argparse.ArgumentParser(description=__doc__, formatter_class=argparse.RawDescriptionHelpFormatter)
    parser.add_argument("folder", metavar="FOLDER", type=Path)
    folder = parser.parse_args().folder
    if not folder.is_dir():
        parser.error(f"there is no folder {folder}")
    table = list(rows())
    put(folder / "stdin", "flow", [graph for graph, _ in table])
    put(folder / "stdout", "flow", [line for _, line in table])


if __name__ == "__main__":
    main()
