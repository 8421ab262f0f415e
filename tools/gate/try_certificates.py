#!/usr/bin/env python3
"""Tries the verdicts of file_rows on certificates of random graphs in which one number is changed.

    python3 tools/gate/try_certificates.py PROGRAM [TRIALS] [SEED]

PROGRAM is the built program file_rows. Each right certificate, of a flow and a side that networkx found, must be
verified; each changed one must be rejected, or its value is the maximum flow that networkx finds of the changed graph.
Each verdict must be that of tools/tables/make_certificate_rows.py too.
"""
import argparse
import random
import re
import subprocess
import sys
import tempfile
from pathlib import Path

import networkx

sys.path.insert(0, str(Path(__file__).resolve().parent.parent / "tables"))
from make_certificate_rows import LIMIT, judge, read  # noqa: E402


def network(points, relays, links):
    """A graph as networkx has it."""
    graph = networkx.DiGraph()
    graph.add_nodes_from(["source", "sink"])
    for i, capacity in enumerate(points):
        graph.add_edge(("in", i), ("out", i), capacity=capacity)
    for source, target in links:
        tail = "source" if source[0] == 0 else ("out", source[1]) if source[0] == 1 else ("r", source[1])
        head = "sink" if target[0] == 3 else ("in", target[1]) if target[0] == 1 else ("r", target[1])
        if tail != head and not graph.has_edge(tail, head):
            graph.add_edge(tail, head)
    return graph


def name(end):
    """How an end of a link is written."""
    return {0: "source", 1: f"p{end[1]}", 2: f"r{end[1]}", 3: "sink"}[end[0]]


def node(end, leaving):
    """The node of an end of a link that leaves it or comes to it."""
    if end[0] == 1:
        return ("out" if leaving else "in", end[1])
    return {0: "source", 2: ("r", end[1]), 3: "sink"}[end[0]]


def right(chance):
    """The text of a certificate of a random graph."""
    count = chance.randrange(1, 8)
    capacities = [chance.choice([1, 2, 5, 100, LIMIT - 1]) for _ in range(count)]
    regions = sorted(chance.sample(range(0, 9), chance.randrange(0, 3)))
    ends = [(1, i) for i in range(count)] + [(2, region) for region in regions]
    links = {((0, 0), (1, chance.randrange(count))) for _ in range(3)}
    links |= {(chance.choice(ends), chance.choice(ends + [(3, 0)])) for _ in range(3 * count)}
    links = sorted(link for link in links if link[0] != link[1] or link[0][0] == 1)
    graph = network(capacities, regions, links)
    value, flow = networkx.maximum_flow(graph, "source", "sink")
    if value >= LIMIT:
        return None
    side, _ = networkx.minimum_cut(graph, "source", "sink")[1]
    lines = ["flowcheck-graph 1", f"value {value}"]
    for i, capacity in enumerate(capacities):
        half = {(1, 1): "s", (1, 0): "m", (0, 1): "o", (0, 0): "t"}[int(("in", i) in side), int(("out", i) in side)]
        amount = flow[("in", i)][("out", i)]
        if amount >= LIMIT:
            return None
        lines.append(f"point 0 0x{65536 + 4 * i:08x} rs capacity {capacity} flow {amount} side {half}")
    for region in regions:
        lines.append(f"relay {region} side {'s' if ('r', region) in side else 't'}")
    for source, target in links:
        amount = 0 if source == target else flow[node(source, True)].get(node(target, False), 0)
        lines.append(f"link {name(source)} {name(target)} flow {amount}")
    return "\n".join(lines + ["end", ""])


def changed(chance, text):
    """The text with one number changed."""
    numbers = [found for found in re.finditer(r"(?<=[ pr])\d+(?=[ \n])", text)]
    found = chance.choice(numbers)
    old = int(found[0])
    new = chance.choice([old + 1, max(old - 1, 0), chance.randrange(0, 10), chance.randrange(LIMIT)])
    return text[: found.start()] + str(new) + text[found.end() :]


def is_right(text, value):
    """Whether the value of a certificate is the greatest flow of its graph, by networkx."""
    points, relays, links, _ = read(text)
    graph = network([capacity for _, capacity, _, _ in points], relays, [link for link, *_ in links])
    return networkx.maximum_flow_value(graph, "source", "sink") == value


def main():
    """Tries random certificates, and changed ones."""
    parser = argparse.ArgumentParser(description=__doc__, formatter_class=argparse.RawDescriptionHelpFormatter)
    parser.add_argument("program", metavar="PROGRAM", help="the built program file_rows")
    parser.add_argument("trials", metavar="TRIALS", type=int, nargs="?", default=2000)
    parser.add_argument("seed", metavar="SEED", type=int, nargs="?", default=1)
    words = parser.parse_args()
    if not Path(words.program).is_file():
        parser.error(f"there is no file {words.program}")
    program, trials, chance = words.program, words.trials, random.Random(words.seed)
    with tempfile.TemporaryDirectory() as folder:
        texts = []
        while len(texts) < 2 * trials:
            text = right(chance)
            if text is not None:
                texts += [text, changed(chance, text)]
        for i, text in enumerate(texts):
            (Path(folder) / str(i)).write_text(text)
        names = "table certificate\n" + "".join(f"{i}\n" for i in range(len(texts)))
        program = str(Path(program).resolve())
        out = subprocess.run([program], cwd=folder, input=names, capture_output=True, text=True, check=True).stdout
    verified = 0
    for i, (text, line) in enumerate(zip(texts, out.splitlines()[1:-1], strict=True)):
        verdict = line.split(": ", 1)[1]
        assert verdict == judge(text), (i, verdict, judge(text))
        if i % 2 == 0:
            assert verdict.startswith("verified "), (i, verdict)
        elif verdict.startswith("verified "):
            assert is_right(text, int(verdict.split()[1])), (i, verdict)
            verified += 1
    print(f"{trials} right certificates are verified; of {trials} changed ones {trials - verified} are rejected, "
          f"{verified} are right by networkx")


if __name__ == "__main__":
    main()
