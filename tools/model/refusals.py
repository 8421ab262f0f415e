"""What is wrong with a program file, a region file or a cut that is not well formed; None where nothing is."""
import json
import re
import struct

from cuts import NAMES, SLOTS, point_order
from guest import MEMORY_SIZE, shown

MOST_ADDRESS, MOST_BASE = 0xFFFFF000, 0xFEFFF000
MOST_DEPTH, MOST_REGIONS, MOST_RANGES, MOST_BYTES = 127, 256, 64, 65_536
ADDRESS = re.compile(r"0x[0-9a-fA-F]{1,8}")
MOST_WORD = 0xFFFFFFFF


def program_fault(file):
    """The fault of a program file."""
    if len(file) < 52:
        return f"truncated need 52 have {len(file)}"
    for offset, byte in enumerate(b"\x7fELF\x01\x01\x01"):
        if file[offset] != byte:
            return f"not-elf32 offset {offset} byte 0x{file[offset]:02x}"
    kind, machine = struct.unpack_from("<HH", file, 16)
    place, flags = struct.unpack_from("<I4xI", file, 28)
    size, count = struct.unpack_from("<HH", file, 42)
    if (kind, machine) != (2, 243):
        return f"wrong-kind type {kind} machine {machine}"
    if flags & 1:
        return "compressed"
    if size != 32 or not 1 <= count <= 64:
        return f"headers {count} size {size} loads 0"
    if place + 32 * count > len(file):
        return f"truncated need {place + 32 * count} have {len(file)}"
    return headers_fault(file, [struct.unpack_from("<8I", file, place + 32 * index) for index in range(count)])


def headers_fault(file, headers):
    """The fault of the program headers, each of which is (kind, offset, address, _, file size, size, _, _)."""
    for index, header in enumerate(headers):
        if header[0] in (2, 3):
            return f"dynamic {index}"
    loads = [(index, header) for index, header in enumerate(headers) if header[0] == 1 and header[5]]
    if not loads:
        return f"headers {len(headers)} size 32 loads 0"
    base = min(header[2] for _, header in loads) & ~0xFFF
    for index, (_, offset, address, _, file_size, size, _, _) in loads:
        if file_size > size or offset + file_size > len(file) or address + size > min(base + MEMORY_SIZE, MOST_ADDRESS):
            return f"segment {index}"
    if base > MOST_BASE:
        return f"segment {min(loads, key=lambda load: load[1][2])[0]}"
    return overlap_fault(loads) or entry_fault(struct.unpack_from("<I", file, 24)[0], loads)


def overlap_fault(loads):
    """The fault of two loads that share an address."""
    for place, (index, header) in enumerate(loads):
        for other, second in loads[place + 1 :]:
            if max(header[2], second[2]) < min(header[2] + header[5], second[2] + second[5]):
                return f"overlap {index} {other}"
    return None


def entry_fault(entry, loads):
    """The fault of an entry that is in no load."""
    is_inside = any(header[2] <= entry < header[2] + header[5] for _, header in loads)
    return None if is_inside and entry % 4 == 0 else f"entry {shown(entry)}"


def whole_number(text):
    """A number without a point: a float where it is no word of 64 bits."""
    is_word = len(text) <= 20 and -(1 << 63) <= int(text) < 1 << 64 and text != "-0"
    return int(text) if is_word else finite(text)


def finite(text):
    """A number with a point or an exponent, which must not be too large."""
    number = float(text)
    if abs(number) == float("inf"):
        raise ValueError(text)
    return number


def depth_of(text):
    """How deep lists and objects are nested, as far as strings end where a quote stands alone."""
    depth = deepest = 0
    for mark in re.findall(r'"(?:[^"\\]|\\.)*"|[\[\]{}]', text):
        depth += {"[": 1, "{": 1, "]": -1, "}": -1}.get(mark, 0)
        deepest = max(deepest, depth)
    return deepest


def no_constant(text):
    """NaN and the like are no numbers."""
    raise ValueError(text)


def read_json(file):
    """The value of a JSON text; a `ValueError` where there is none."""
    text = file.decode()
    if depth_of(text) > MOST_DEPTH:
        raise ValueError("depth")
    value = json.loads(text, parse_int=whole_number, parse_float=finite, parse_constant=no_constant)
    json.dumps(value, ensure_ascii=False).encode()
    return value


def regions_fault(file):
    """The fault of a region file."""
    try:
        whole = read_json(file)
    except (ValueError, OverflowError):
        return "json"
    if not isinstance(whole, dict) or set(whole) != {"regions"} or not isinstance(whole["regions"], list):
        return "shape 0"
    items = whole["regions"]
    if len(items) > MOST_REGIONS:
        return f"too-many {len(items)}"
    return next(filter(None, (region_fault(items, place) for place in range(len(items)))), None)


def region_fault(items, place):
    """The fault of a region of a list in which the earlier ones have none."""
    item, earlier, number = items[place], items[:place], place + 1
    if not is_region(item) or item["id"] in [other["id"] for other in earlier]:
        return f"shape {number}"
    enter, leave = int(item["enter"], 16), int(item["leave"], 16)
    if enter == leave:
        return f"same-address {number}"
    registers = [NAMES[name] for key in ("outs", "keep") for name in item.get(key, [])]
    twice = [register for register in registers if registers.count(register) > 1]
    if twice:
        return f"register-twice {number} x{min(twice)}"
    return f"enter-twice {number}" if enter in [int(other["enter"], 16) for other in earlier] else None


def is_whole(value, lowest, highest):
    """Whether a value is a whole number within bounds."""
    return type(value) is int and lowest <= value <= highest


def is_region(item):
    """Whether a value has the shape of a region."""
    keys = {"id", "enter", "leave", "outs", "keep", "ranges"}
    if not isinstance(item, dict) or not {"id", "enter", "leave"} <= set(item) <= keys:
        return False
    if not is_whole(item["id"], 1, 65_535) or not all(is_address(item[key]) for key in ("enter", "leave")):
        return False
    if not all(is_list(item.get(key, []), is_register) for key in ("outs", "keep")):
        return False
    ranges = item.get("ranges", [])
    return is_list(ranges, is_range) and len(ranges) <= MOST_RANGES and sum(map(length_in, ranges)) <= MOST_BYTES


def is_list(value, is_item):
    """Whether a value is a list of such items."""
    return isinstance(value, list) and all(map(is_item, value))


def is_address(value):
    """Whether a value is the address of an instruction."""
    return isinstance(value, str) and bool(ADDRESS.fullmatch(value)) and int(value, 16) % 4 == 0


def is_register(value):
    """Whether a value is the name of a register."""
    return isinstance(value, str) and value in NAMES


def length_in(span):
    """The length of a range."""
    return span["length"]


def is_range(value):
    """Whether a value has the shape of a range."""
    if not isinstance(value, dict) or not {"length"} <= set(value) <= {"length", "offset", "base"}:
        return False
    base = value.get("base")
    is_placed = is_whole(value.get("offset", 0), -(1 << 31), MOST_WORD) and (base is None or is_register(base))
    return is_placed and is_whole(value["length"], 1, 65_536)


def is_number(word, lowest, highest):
    """Whether a word is a decimal within bounds, without zeros before it."""
    return bool(re.fullmatch(r"0|[1-9][0-9]{0,9}", word)) and lowest <= int(word) <= highest


class BadCut(Exception):
    """A text is no cut; the text says why."""


def is_mask(word):
    """Whether a word is a mask or an address."""
    return bool(re.fullmatch(r"0x[0-9a-f]{8}", word))


def are_runs(words):
    """Whether words are runs of which neighbours differ."""
    pairs = [word.split("*") for word in words]
    if not all(len(pair) == 2 and is_number(pair[0], 1, MOST_WORD) and is_mask(pair[1]) for pair in pairs):
        return False
    return all(first[1] != second[1] for first, second in zip(pairs, pairs[1:]))


def is_slot(word):
    """Whether a word is the name of a slot."""
    highest = {"x": (1, 31), "r": (0, 63)}.get(word[:1])
    return word in SLOTS or highest is not None and is_number(word[1:], *highest)


def point_of(words, version):
    """The point of the words of a point line, or None where they are none."""
    if len(words) < 6 or "rest" not in words[4:] or not is_number(words[1], 0, 65_535) or not is_mask(words[2]):
        return None
    rest = words.index("rest", 4)
    last = words[rest + 1 :]
    is_last = len(last) == 1 and is_mask(last[0]) if version == 1 else bool(last) and are_runs(last)
    if not is_slot(words[3]) or not are_runs(words[4:rest]) or not is_last:
        return None
    return point_order((int(words[1]), int(words[2], 16), words[3]))


class CutLines:
    """Reads the lines of a cut and stops at the first that fails."""

    def __init__(self, text):
        self.lines, self.place, self.offset = text.split("\n"), 0, 0

    def next(self):
        """The next whole line."""
        if self.place + 1 >= len(self.lines):
            raise BadCut("truncated")
        line = self.lines[self.place]
        self.place, self.offset = self.place + 1, self.offset + len(line) + 1
        return line

    def require(self, is_right):
        """Fails in the line that has just been read."""
        if not is_right:
            raise BadCut(f"line {self.place}")

    def read(self):
        """Reads all lines."""
        first = self.next()
        if first not in ("flowcheck-cut 1", "flowcheck-cut 2"):
            raise BadCut("version")
        for name, most in (("secret", 65_536), ("bits", MOST_WORD)):
            words = self.next().split(" ")
            self.require(len(words) == 2 and words[0] == name and is_number(words[1], 0, most))
        self.read_points(int(first[-1]))
        if self.offset < len("\n".join(self.lines)):
            raise BadCut(f"trailing {self.offset}")

    def read_points(self, version):
        """Reads the lines from the first skip to the end."""
        skip = point = None
        while (line := self.next()) != "end":
            words = line.split(" ")
            if words[0] == "skip" and point is None:
                self.require(len(words) == 2 and is_number(words[1], 1, 65_535))
                skip = self.ascending(skip, int(words[1]))
            else:
                self.require(words[0] == "point" and point_of(words, version) is not None)
                point = self.ascending(point, point_of(words, version))

    def ascending(self, earlier, later):
        """The later of two items, which must exceed the earlier one."""
        if earlier is not None and earlier >= later:
            raise BadCut(f"order {self.place}")
        return later


def cut_fault(file):
    """The fault of a cut."""
    try:
        CutLines(file.decode("latin-1")).read()
    except BadCut as fault:
        return str(fault)
    return None
