"""Where instructions come from: function, file and line, by the symbols and, where there is one, a symbolizer of
binutils or LLVM. Without debug information the functions are left, and without symbols the addresses."""
import os
import re
import shutil
import subprocess

from guest import shown

ADDR2LINE = ["riscv64-unknown-elf-addr2line", "riscv32-unknown-elf-addr2line", "riscv64-linux-gnu-addr2line"]
CALLS_HEADER = "flowcheck.h"
LLVM = ["llvm-symbolizer"] + [f"llvm-symbolizer-{version}" for version in range(20, 12, -1)]


class Place:
    """Where an instruction comes from. File and line are None without debug information, as the function is without
    symbols."""

    def __init__(self, address, function=None, file=None, line=None):
        self.address, self.function, self.file, self.line = address, function, file, line

    def line_text(self):
        """File and line, or nothing."""
        return f"{os.path.basename(self.file)}:{self.line}" if self.file else ""

    def text(self):
        """Function, file and line as far as they are known, else the address."""
        return " ".join(filter(None, [self.function, self.line_text()])) or shown(self.address)


def symbolizer():
    """The command of a symbolizer that reads addresses from its standard input, or None."""
    for name in LLVM:
        if shutil.which(name):
            return [name, "--output-style=GNU", "--addresses", "--functions", "--inlines", "-e"]
    for name in ADDR2LINE:
        if shutil.which(name):
            return [name, "-a", "-f", "-i", "-C", "-e"]
    return None


def frames_of(text):
    """The place of each address in what a symbolizer prints: of its frames, the innermost one that is not of the header
    with the guest calls, if there is one."""
    places, address, is_settled, lines = {}, None, False, text.split("\n")
    index = 0
    while index < len(lines):
        if re.fullmatch(r"0x[0-9a-f]+", lines[index]):
            address, is_settled, index = int(lines[index], 16), False, index + 1
            continue
        if address is not None and not is_settled and index + 1 < len(lines) and lines[index]:
            place = frame_of(address, *lines[index : index + 2])
            is_settled = os.path.basename(place.file or "") != CALLS_HEADER
            if is_settled or address not in places:
                places[address] = place
        index += 2
    return places


def frame_of(address, function, line):
    """The place that two lines of a symbolizer say."""
    file, _, number = re.sub(r" \(discriminator \d+\)", "", line).rpartition(":")
    is_known = number.isdigit() and number != "0" and not file.startswith("??")
    name = None if function.startswith("??") else function
    return Place(address, name, file, int(number)) if is_known else Place(address, name)


class Places:
    """The places of all instructions of a program file, and the lines of the sources that are there."""

    def __init__(self, name, program, folders=(), command=None):
        self.program, self.folders, self.sources = program, list(folders), {}
        self.places, command = {}, command or symbolizer()
        addresses = program.addresses()
        if command and program.functions:
            asked = "".join(f"0x{address:x}\n" for address in addresses)
            done = subprocess.run(
                command + [name], input=asked, stdout=subprocess.PIPE, stderr=subprocess.DEVNULL, check=False, text=True
            )
            self.places = frames_of(done.stdout)
        for address in addresses:
            place = self.places.setdefault(address, Place(address))
            symbol = program.function_at(address)
            if place.function is None and symbol:
                place.function = symbol.name

    def at(self, address):
        """The place of an address."""
        return self.places.get(address) or Place(address)

    def has_lines(self):
        """Whether there is debug information."""
        return any(place.file for place in self.places.values())

    def source(self, file):
        """The lines of a source, or None where it cannot be found; beside its own path it is looked for in folders."""
        if file not in self.sources:
            self.sources[file] = None
            for path in [file] + [os.path.join(folder, os.path.basename(file)) for folder in self.folders]:
                if os.path.isfile(path):
                    with open(path, encoding="utf-8", errors="replace") as opened:
                        self.sources[file] = opened.read().split("\n")
                    break
        return self.sources[file]

    def line_of(self, place):
        """The text of a place's line, or nothing."""
        lines = self.source(place.file) if place.file else None
        return lines[place.line - 1] if lines and place.line <= len(lines) else ""
