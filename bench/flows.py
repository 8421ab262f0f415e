#!/usr/bin/env python3
"""flows.py PROGRAM [POINTS LINKS] [--certificates FILE... [--together] [--times N]]

Times the maximum flow of the built program graph_rows beside a plain Dinic in C++ and two solvers of Boost
(Boykov-Kolmogorov and push-relabel), on four kinds of graphs: random; local and forward, as runs make them; one chain;
wide layers. Without numbers such a graph has 65,536 points and about 1,000,000 links.

The seconds are those of the solving alone: of PROGRAM, those of the whole command less those of a command that reads the
same line with one more word, which makes it no graph. All four must find one value.

With --certificates the graphs are those of these files, as `flowcheck graph` writes them of runs, and the value must be
that of the file; --together adds the graph that they make together, in which equal points have the sum of their
capacities. The times are then milliseconds, each the least of so many calls (1 without --times), for all four with the
making of the network.

    apt-get install g++ libboost-graph-dev

Linux with Python 3."""
import argparse
import os
import pathlib
import random
import subprocess
import sys
import tempfile
import time


def link_words(pairs, sources, sinks):
    """The links as words, ascending: those of the source, and of each point those to points and then that to the
    sink."""
    leads = sorted([(a, 0, b) for a, b in pairs] + [(p, 1, 0) for p in sinks])
    return [f"s-p{p}" for p in sources] + [f"p{a}-t" if last else f"p{a}-p{b}" for a, last, b in leads]


def random_graph(points, links, chance):
    """Links between any points, with those that begin and those that end: every 64th."""
    pairs = {(chance.randrange(points), chance.randrange(points)) for _ in range(links)}
    return sorted(pairs), range(0, points, 64), range(1, points, 64)


def local_graph(points, links, chance):
    """Links to near points, from the first 64 to the last 64."""
    each = max(1, links // points)
    pairs = {(p, min(points - 1, p + chance.randrange(1, 100))) for p in range(points - 1) for _ in range(each)}
    return sorted(pairs), range(0, 64), range(points - 64, points)


def chain(points, links, chance):
    """One link from each point to the next."""
    return [(p, p + 1) for p in range(points - 1)], [0], [points - 1]


def layers(points, links, chance):
    """Links from each layer of 1,024 points to the next."""
    width = 1024
    each = max(1, links // points)
    first = [(p, (p // width + 1) * width) for p in range(points - width)]
    pairs = {(p, begin + chance.randrange(width)) for p, begin in first for _ in range(each)}
    return sorted(pairs), range(width), range(points - width, points)


def run(command, text):
    """What a command prints of a text, and its seconds."""
    begin = time.monotonic()
    out = subprocess.run(command, input=text, capture_output=True, text=True, check=True).stdout
    return out, time.monotonic() - begin


class RunGraph:
    """The graph of a certificate: points by region, address and slot with their capacities, relays, links by names."""

    def __init__(self, text):
        self.value, self.points, self.relays, self.links = None, {}, set(), set()
        names = []
        for line in text.splitlines():
            words = line.split(" ")
            if words[0] == "value":
                self.value = int(words[1])
            elif words[0] == "point":
                names.append((int(words[1]), int(words[2], 16), words[3]))
                self.points[names[-1]] = int(words[5])
            elif words[0] == "relay":
                self.relays.add(int(words[1]))
            elif words[0] == "link":
                ends = [names[int(w[1:])] if w[0] == "p" else int(w[1:]) if w[0] == "r" else w for w in
                        (word.replace("source", "s").replace("sink", "t") for word in words[1:3])]
                self.links.add(tuple(ends))

    def add(self, other):
        for point, capacity in other.points.items():
            self.points[point] = self.points.get(point, 0) + capacity
        self.value = None
        self.relays |= other.relays
        self.links |= other.links

    def words(self):
        """The capacities, the relays and the links, ascending by both ends."""
        index = {point: i for i, point in enumerate(self.points)}

        def place(end):
            if isinstance(end, tuple):
                return 1, index[end]
            return (2, end) if isinstance(end, int) else (0 if end == "s" else 3, 0)

        def word(end):
            return f"p{index[end]}" if isinstance(end, tuple) else f"r{end}" if isinstance(end, int) else end

        links = sorted(self.links, key=lambda ends: (place(ends[0]), place(ends[1])))
        return ([str(c) for c in self.points.values()] + [f"r{r}" for r in sorted(self.relays)]
                + [f"{word(a)}-{word(b)}" for a, b in links])


def run_graphs(files, together):
    """The graphs of certificates by name, and the one that they make together."""
    graphs = []
    for file in files:
        graphs.append((file.name, RunGraph(file.read_text())))
    if together:
        union = RunGraph("")
        for _, graph in graphs:
            union.add(graph)
        union.points = dict(sorted(union.points.items()))
        graphs.append(("together", union))
    return graphs


def worked(command, text, times):
    """The answer, and the least seconds of a processor of so many calls."""
    least = None
    with tempfile.TemporaryFile("w+") as given, tempfile.TemporaryFile("w+") as put:
        given.write(text)
        given.flush()
        for _ in range(times):
            given.seek(0)
            put.seek(0)
            put.truncate()
            child = subprocess.Popen(command, stdin=given, stdout=put)
            _, status, usage = os.wait4(child.pid, 0)
            if status:
                raise SystemExit(f"{command}: status {status}")
            seconds = usage.ru_utime + usage.ru_stime
            least = seconds if least is None else min(least, seconds)
        put.seek(0)
        return put.read(), least


def time_files(program, peer, words):
    """Prints a row for each graph of a run, in milliseconds."""
    print(f"{'graph':24}{'points':>8}{'links':>9}{'bits':>7}{'graph_rows':>12}{'dinic':>10}{'boykov-k.':>11}"
          f"{'push-rel.':>11}{'times best':>12}")
    for name, graph in run_graphs(words.certificates, words.together):
        line = " ".join(graph.words())
        _, reading = worked([program], f"table flow\n{line} x\n", words.times)
        answer, seconds = worked([program], f"table flow\n{line}\n", words.times)
        value = int(answer.splitlines()[1].split()[0])
        rows = {}
        for _ in range(words.times):
            found, _ = run([peer], line + "\n")
            for who, found_value, solving, making in (row.split() for row in found.splitlines()):
                if int(found_value) != value or graph.value not in (None, value):
                    raise SystemExit(f"{name}: {value} here, {found_value} by {who}, {graph.value} in the file")
                rows[who] = min(rows.get(who, float("inf")), float(solving) + float(making))
        peers = [rows[who] for who in ("dinic", "boykov-kolmogorov", "push-relabel")]
        mine = max(seconds - reading, 0)
        print(f"{name:24}{len(graph.points):>8}{len(graph.links):>9}{value:>7}{1e3 * mine:>12.2f}"
              + "".join(f"{1e3 * one:>{width}.3f}" for one, width in zip(peers, (10, 11, 11)))
              + f"{mine / max(min(peers), 1e-6):>12.2f}", flush=True)


def main():
    """Prints the seconds of each graph."""
    parser = argparse.ArgumentParser(description=__doc__, formatter_class=argparse.RawDescriptionHelpFormatter)
    parser.add_argument("program", metavar="PROGRAM", help="the built program graph_rows")
    parser.add_argument("points", metavar="POINTS", type=int, nargs="?", default=65_536)
    parser.add_argument("links", metavar="LINKS", type=int, nargs="?", default=960_000)
    parser.add_argument("--certificates", metavar="FILE", type=pathlib.Path, nargs="+")
    parser.add_argument("--together", action="store_true")
    parser.add_argument("--times", metavar="N", type=int, default=1)
    words = parser.parse_args()
    if not pathlib.Path(words.program).is_file():
        parser.error(f"there is no file {words.program}")
    program, points, links = str(pathlib.Path(words.program).resolve()), words.points, words.links
    source = pathlib.Path(__file__).with_name("flows.cpp")
    with tempfile.TemporaryDirectory() as folder:
        peer = f"{folder}/flows"
        subprocess.run(["g++", "-O2", "-o", peer, str(source)], check=True)
        if words.certificates:
            time_files(program, peer, words)
            return 0
        print(f"{'graph':10}{'links':>10}{'graph_rows':>13}{'dinic':>9}{'boykov-kolmogorov':>19}{'push-relabel':>14}")
        for kind in (random_graph, local_graph, chain, layers):
            chance = random.Random(1)
            pairs, sources, sinks = kind(points, links, chance)
            capacities = [str(chance.randrange(1, 33)) for _ in range(points)]
            words = link_words(pairs, sources, sinks)
            line = " ".join(capacities + words)
            _, reading = run([program], f"table flow\n{line} x\n")
            answer, seconds = run([program], f"table flow\n{line}\n")
            value = int(answer.splitlines()[1].split()[0])
            found, _ = run([peer], line + "\n")
            rows = dict((name, (int(v), float(s))) for name, v, s, _ in (row.split() for row in found.splitlines()))
            if any(v != value for v, _ in rows.values()):
                raise SystemExit(f"{kind.__name__}: {value} here, {rows}")
            times = [seconds - reading] + [rows[name][1] for name in ("dinic", "boykov-kolmogorov", "push-relabel")]
            print(f"{kind.__name__:10}"[:10] + f"{len(words):>10}{times[0]:>13.2f}{times[1]:>9.2f}{times[2]:>19.2f}"
                  f"{times[3]:>14.2f}", flush=True)
    return 0


if __name__ == "__main__":
    sys.exit(main())
