"""The annotated sources and listings of a page: which lines secret bits pass, and where the cut is."""
import os

from document import Marked, Section
from flow_picture import bits_text
from guest import shown
from instruction_text import instruction_text
from source_lines import CALLS_HEADER

MOST_LINES, AROUND, MOST_INSTRUCTIONS = 150, 4, 240


class Marks:
    """What is marked at instructions: the bits of the cut, points that secret bits pass, and one that is told of."""

    def __init__(self, cut_bits=None, passed=(), parted=None):
        self.cut_bits, self.passed, self.parted = cut_bits or {}, set(passed), parted

    def addresses(self):
        """All marked addresses."""
        return self.passed | set(self.cut_bits) | ({self.parted} if self.parted is not None else set())

    def kind_of(self, addresses):
        """The kind and the margin of a line that some instructions come from."""
        if self.parted in addresses:
            return "parted", "here"
        cut = sum(self.cut_bits.get(address, 0) for address in addresses)
        if any(address in self.cut_bits for address in addresses):
            return "cut", bits_text(cut)
        return ("secret", "secret") if self.passed & set(addresses) else ("", "")


def windows(numbers, last):
    """Of the lines 1 to `last` those near some numbers, as ranges."""
    ranges = []
    for number in sorted(numbers):
        begin, end = max(1, number - AROUND), min(last, number + AROUND)
        if ranges and begin <= ranges[-1][1] + 2:
            ranges[-1][1] = max(end, ranges[-1][1])
        else:
            ranges.append([begin, end])
    return ranges


def source_blocks(places, marks):
    """The sources that marked instructions come from, one block for each file that can be found."""
    by_file = {}
    for address in marks.addresses():
        place = places.at(address)
        if place.file:
            by_file.setdefault(place.file, {}).setdefault(place.line, []).append(address)
    blocks = []
    for file in sorted(by_file, key=lambda file: (os.path.basename(file) == CALLS_HEADER, file)):
        lines = places.source(file)
        if lines:
            blocks.append(Marked(os.path.basename(file), source_lines(lines, by_file[file], marks)))
    return blocks


def code_sections(program, places, marks, key):
    """The sources, with what their marks mean, and the listings."""
    return [Section("The source", key, *source_blocks(places, marks)),
            Section("The listing", *listing_blocks(program, places, marks))]


def source_lines(lines, by_line, marks):
    """The lines of a source, all or those near marked ones."""
    last = len(lines) - (lines[-1] == "")
    ranges = [[1, last]] if last <= MOST_LINES else windows(by_line, last)
    marked = []
    for begin, end in ranges:
        marked += [("", "", "…", "")] if marked else []
        for number in range(begin, end + 1):
            kind, margin = marks.kind_of(by_line.get(number, []))
            marked.append((kind, margin, str(number), lines[number - 1].expandtabs(4)))
    return marked


def listing_blocks(program, places, marks):
    """The functions that have marked instructions; without symbols, what is near these."""
    functions, loose = {}, []
    for address in sorted(marks.addresses()):
        function = program.function_at(address)
        if function and function.size <= 4 * MOST_INSTRUCTIONS:
            functions[function.address] = function
        else:
            loose.append(address // 4)
    blocks = [
        listing_block(f"{function.name} at {shown(function.address)}", program, places, marks,
                      [[function.address // 4, (function.address + function.size) // 4 - 1]])
        for function in functions.values()
    ]
    if loose:
        blocks.append(listing_block("near marked instructions", program, places, marks, windows(loose, 1 << 30)))
    return blocks


def listing_block(title, program, places, marks, ranges):
    """A listing of ranges of words, with the line of the source where it changes."""
    lines, last = [], None
    for begin, end in ranges:
        lines += [("", "", "…", "")] if lines else []
        for address in (4 * word for word in range(begin, end + 1) if 4 * word in program.image.memory):
            place = places.at(address)
            if place.file and (place.file, place.line) != last:
                last = place.file, place.line
                lines.append(("origin", "", "", f"{place.text()}  {places.line_of(place).strip()}"))
            kind, margin = marks.kind_of([address])
            text = instruction_text(program.instruction(address), address)
            lines.append((kind, margin, f"{address:08x}", text))
    return Marked(title, lines, True)
