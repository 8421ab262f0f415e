#!/usr/bin/env python3
"""Makes the files and the rows of the table `certificate` of crates/file_rows, in its `stdin` and its `stdout`.

The verdicts are those of a second implementation, below, of the format of certificates and of the table of refusals.
It shares nothing with the crate flow_certificate. Run it at the top of the repository.
"""
import re
from pathlib import Path

from put_rows import put

LIMIT = 1 << 48
SLOTS = ["u1", "u2", "ad", "rs", "de", "nr", "a0", "a1", "a2", "in", "ou", "st"]
NUMBER = r"(0|[1-9][0-9]*)"
POINT = re.compile(rf"point {NUMBER} 0x([0-9a-f]{{8}}) (\S+) capacity {NUMBER} flow {NUMBER} side ([smot])\Z")
RELAY = re.compile(rf"relay {NUMBER} side ([st])\Z")
LINK = re.compile(rf"link (\S+) (\S+) flow {NUMBER}\Z")


def slot_number(text):
    """The place of a slot in the order of points; None where it is no slot."""
    if text in SLOTS:
        return 1 + SLOTS.index(text)
    found = re.match(rf"([xr]){NUMBER}\Z", text)
    if not found:
        return None
    number = int(found[2])
    if found[1] == "x":
        return 12 + number if 1 <= number <= 31 else None
    return 44 + number if number < 64 else None


def end_key(text, points, regions):
    """The place of an end in the order of ends, or None."""
    if text == "source":
        return (0, 0)
    if text == "sink":
        return (3, 0)
    found = re.match(rf"([pr]){NUMBER}\Z", text)
    if not found:
        return None
    number = int(found[2])
    if found[1] == "p":
        return (1, number) if number < points else None
    return (2, number) if number in regions else None


def read(text):
    """The parts of a certificate, or the number of the first line that fails."""
    lines = text.split("\n")
    whole = lines[:-1]
    points, relays, links, value = [], [], [], None
    for number, line in enumerate(whole, 1):
        if number == 1:
            if line != "flowcheck-graph 1":
                return number
            continue
        if number == 2:
            found = re.match(rf"value {NUMBER}\Z", line)
            if not found or int(found[1]) >= LIMIT:
                return number
            value = int(found[1])
            continue
        if line == "end":
            if number == len(whole) and lines[-1] == "":
                return points, relays, links, value
            return number + 1
        if found := POINT.match(line):
            key = (int(found[1]), int(found[2], 16), slot_number(found[3]))
            capacity, flow = int(found[4]), int(found[5])
            if relays or links or key[2] is None or key[0] > 65535 or not 0 < capacity < LIMIT or flow >= LIMIT:
                return number
            if points and points[-1][0] >= key:
                return number
            points.append((key, capacity, flow, found[6]))
        elif found := RELAY.match(line):
            region = int(found[1])
            if links or region > 65535 or (relays and relays[-1][0] >= region):
                return number
            relays.append((region, found[2] == "s"))
        elif found := LINK.match(line):
            regions = {region for region, _ in relays}
            source = end_key(found[1], len(points), regions)
            target = end_key(found[2], len(points), regions)
            if source is None or target is None or source == (3, 0) or target == (0, 0) or int(found[3]) >= LIMIT:
                return number
            if source == (0, 0) and target[0] != 1:
                return number
            if links and links[-1][0] >= (source, target):
                return number
            links.append(((source, target), int(found[3]), found[1], found[2]))
        else:
            return number
    return len(whole) + 1


def judge(text):
    """What is said of a certificate: its value, or why it is refused."""
    parts = read(text)
    if isinstance(parts, int):
        return f"line {parts}"
    points, relays, links, value = parts
    into, out = {}, {}
    for i, (_, capacity, flow, _) in enumerate(points):
        if flow > capacity:
            return f"rejected over p{i}"
        out[("in", i)] = out.get(("in", i), 0) + flow
        into[("out", i)] = into.get(("out", i), 0) + flow
    for (source, target), flow, _, _ in links:
        tail = ("out", source[1]) if source[0] == 1 else ("r", source[1]) if source[0] == 2 else "source"
        head = ("in", target[1]) if target[0] == 1 else ("r", target[1]) if target[0] == 2 else "sink"
        out[tail] = out.get(tail, 0) + flow
        into[head] = into.get(head, 0) + flow
    for i in range(len(points)):
        for half in ("in", "out"):
            if into.get((half, i), 0) != out.get((half, i), 0):
                return f"rejected unbalanced p{i}.{half}"
    for region, _ in relays:
        if into.get(("r", region), 0) != out.get(("r", region), 0):
            return f"rejected unbalanced r{region}"
    inside = {("r", region): answer for region, answer in relays}
    for (source, target), _, first, second in links:
        leaves = source[0] == 0 or source[0] == 1 and points[source[1]][3] in "so" or source[0] == 2 and inside[
            ("r", source[1])]
        enters = target[0] == 1 and points[target[1]][3] in "sm" or target[0] == 2 and inside[("r", target[1])]
        if leaves and not enters:
            return f"rejected across {first} {second}"
    flow = out.get("source", 0)
    cut = sum(capacity for _, capacity, _, half in points if half == "m")
    if not value == flow == cut:
        return f"rejected values value {value} flow {flow} cut {cut}"
    return f"verified {value}"


def rows():
    """The changed certificates by their names."""
    low = Path("crates/file_rows/data/low").read_text()
    lines = low.split("\n")
    top = LIMIT - 1

    def with_line(number, line):
        return "\n".join(lines[: number - 1] + [line] + lines[number:])

    def made(value, points, relays, links):
        return "\n".join(["flowcheck-graph 1", f"value {value}"] + points + relays + links + ["end", ""])

    point = "point 0 0x0001{:04x} rs capacity {} flow {} side {}".format
    yield "low", low
    yield "balance", low.replace("u1 capacity 8 flow 1", "u1 capacity 8 flow 0")
    yield "value-2", low.replace("value 1", "value 2")
    yield "value-01", low.replace("value 1", "value 01")
    yield "no-end", low[: -len("end\n")]
    yield "over", with_line(6, lines[5].replace("flow 1", "flow 2"))
    yield "across", with_line(6, lines[5].replace("side m", "side t"))
    yield "no-feed", low[:-1]
    yield "behind", low + "x"
    yield "behind-line", low + "end\n"
    yield "empty", ""
    yield "version", low.replace("graph 1", "graph 2")
    yield "swapped-points", "\n".join(lines[:2] + [lines[3], lines[2]] + lines[4:])
    yield "swapped-links", "\n".join(lines[:9] + [lines[10], lines[9]] + lines[11:])
    yield "doubled-point", "\n".join(lines[:3] + lines[2:])
    yield "doubled-link", "\n".join(lines[:9] + lines[8:])
    yield "missing-point", "\n".join(lines[:7] + lines[8:])
    yield "missing-link", "\n".join(lines[:10] + lines[11:])
    yield "p00", low.replace("link p0 p1", "link p00 p1")
    yield "no-capacity", low.replace("in capacity 8", "in capacity 0")
    yield "value-limit", low.replace("value 1", f"value {LIMIT}")
    yield "value-top", low.replace("value 1", f"value {top}")
    yield "upper-case", low.replace("0x0001001c", "0x0001001C")
    yield "two-spaces", low.replace("value 1", "value  1")
    yield "source-sink", low.replace("link source p0 flow 1\n", "link source p0 flow 1\nlink source sink flow 0\n")
    yield "slot-x0", low.replace(" ou ", " x0 ")
    yield "slot-x31", low.replace(" ou ", " x31 ")
    yield "slot-r63", low.replace(" ou ", " r63 ")
    yield "slot-r64", low.replace(" ou ", " r64 ")
    yield "bare", made(0, [], [], [])
    yield "bare-value", made(5, [], [], [])
    yield "self-link", low.replace("link p0 p1", "link p0 p0 flow 7\nlink p0 p1")
    through = ["link source p0 flow 3", "link p0 r7 flow 3", "link p1 sink flow 3", "link r7 p1 flow 3"]
    yield "relay", made(3, [point(16, 3, 3, "m"), point(20, 3, 3, "t")], ["relay 7 side t"], through)
    yield "relay-unbalanced", made(3, [point(16, 3, 3, "m"), point(20, 3, 3, "t")], ["relay 7 side t"], [
        line.replace("r7 p1 flow 3", "r7 p1 flow 2") for line in through])
    yield "relay-missing", made(3, [point(16, 3, 3, "m"), point(20, 3, 3, "t")], ["relay 8 side t"], through)
    yield "relay-across", made(3, [point(16, 3, 3, "s"), point(20, 3, 3, "m")], ["relay 7 side t"], through)
    yield "over-and-unbalanced", made(3, [point(16, 9, 1, "m"), point(20, 3, 4, "t")], ["relay 7 side t"], through)
    yield "unbalanced-and-across", made(3, [point(16, 3, 3, "s"), point(20, 3, 2, "t")], ["relay 7 side t"], through)
    yield "across-and-values", made(4, [point(16, 3, 3, "s"), point(20, 3, 3, "t")], ["relay 7 side t"], through)


def main():
    """Writes the files, the rows and the answers."""
    folder = Path("crates/file_rows")
    names, answers = [], []
    for name, text in rows():
        (folder / "data" / name).write_text(text)
        names.append(name)
        answers.append(f"{name}: {judge(text)}")
    put(folder / "stdin", "certificate", names)
    put(folder / "stdout", "certificate", answers)


if __name__ == "__main__":
    main()
