"""The symbols and the code of a program file, read from the file itself."""
import bisect
import re
import shutil
import struct
import subprocess

from guest import Image
from instructions import decode

SYMBOL_TABLE, FUNCTION, OBJECT, NO_TYPE = 2, 2, 1, 0
EXECUTABLE = 1
DEMANGLERS = ["c++filt", "llvm-cxxfilt", "riscv64-unknown-elf-c++filt"]
DEMANGLERS += [f"llvm-cxxfilt-{version}" for version in range(20, 12, -1)]


def demangled(names):
    """Names of C++ as they are written, where there is a program that knows them; others stay as they are."""
    mangled = [name for name in names if name.startswith("_Z")]
    command = next(filter(None, map(shutil.which, DEMANGLERS)), None)
    if not mangled or not command:
        return {}
    done = subprocess.run([command], input="\n".join(mangled), stdout=subprocess.PIPE, check=False, text=True)
    return dict(zip(mangled, done.stdout.split("\n")))


def plain_names(name):
    """How a user may call a function: by its whole name, without its parameters, and without what it stands in."""
    bare = re.sub(r"\(.*", "", name)
    return {name, name.split(".")[0], bare, bare.split("::")[-1]}


class Symbol:
    """A function or an object: its name, its first address and its size, which may be found from what follows."""

    def __init__(self, name, address, size):
        self.name, self.address, self.size = name, address, size

    def holds(self, address):
        """Whether an address lies in it."""
        return self.address <= address < self.address + max(self.size, 1)


class ProgramFile:
    """A program file: its image, its loads that may be executed, its functions and its objects, ascending."""

    def __init__(self, file):
        self.file, self.image = file, Image(file)
        self.code = self.executable_loads()
        symbols = list(self.read_symbols())
        names = demangled([symbol.name for _, symbol in symbols])
        for _, symbol in symbols:
            symbol.name = names.get(symbol.name, symbol.name)
        self.functions = self.functions_of(symbols)
        self.objects = sorted((symbol for kind, symbol in symbols if kind == OBJECT), key=lambda symbol: symbol.address)
        self.starts = [function.address for function in self.functions]

    def executable_loads(self):
        """The first address and the one behind the last of each load that may be executed, or of all where none may."""
        place, size, count = struct.unpack_from("<I", self.file, 28)[0], *struct.unpack_from("<HH", self.file, 42)
        headers = [struct.unpack_from("<8I", self.file, place + size * index) for index in range(count)]
        loads = [header for header in headers if header[0] == 1 and header[5] and header[4]]
        chosen = [header for header in loads if header[6] & EXECUTABLE] or loads
        return [(address, address + length) for _, _, address, _, length, _, _, _ in chosen]

    def sections(self):
        """The section headers, none where the file has none that can be read."""
        place, (size, count) = struct.unpack_from("<I", self.file, 32)[0], struct.unpack_from("<HH", self.file, 46)
        if not place or size != 40 or place + size * count > len(self.file):
            return []
        return [struct.unpack_from("<10I", self.file, place + size * index) for index in range(count)]

    def read_symbols(self):
        """The symbols with their kinds."""
        sections = self.sections()
        for _, kind, _, _, offset, size, link, _, _, width in sections:
            if kind != SYMBOL_TABLE or width != 16 or link >= len(sections):
                continue
            names = sections[link][4]
            for place in range(offset, offset + size, width):
                name, address, length, info, _, section = struct.unpack_from("<IIIBBH", self.file, place)
                begin = names + name
                text = self.file[begin : self.file.index(b"\0", begin)].decode("utf-8", "replace")
                if section and text and not text.startswith("$"):
                    yield info & 15, Symbol(text, address, length)

    def functions_of(self, symbols):
        """The functions; one without a size ends where the next one begins, or the code."""
        by_address = {}
        for kind, symbol in symbols:
            is_code = kind == FUNCTION or kind == NO_TYPE and symbol.name == "_start"
            if is_code and (symbol.address not in by_address or symbol.size):
                by_address[symbol.address] = symbol
        functions = [by_address[address] for address in sorted(by_address)]
        for function, following in zip(functions, functions[1:] + [None]):
            if not function.size:
                ends = [end for begin, end in self.code if begin <= function.address < end]
                ends += [following.address] if following else []
                function.size = min(ends, default=function.address + 4) - function.address
        return functions

    def function_at(self, address):
        """The function in which an address lies, or None."""
        place = bisect.bisect_right(self.starts, address) - 1
        return self.functions[place] if place >= 0 and self.functions[place].holds(address) else None

    def functions_named(self, name):
        """The functions of a name, and the copies that compilers make of them, as name.isra.0."""
        return [function for function in self.functions if name in plain_names(function.name)]

    def object_at(self, address):
        """The object in which an address lies, or None."""
        return next((symbol for symbol in self.objects if symbol.size and symbol.holds(address)), None)

    def is_code(self, address):
        """Whether an address is that of four bytes of code."""
        return address % 4 == 0 and any(begin <= address and address + 4 <= end for begin, end in self.code)

    def word(self, address):
        """The word at an address."""
        return sum(self.image.memory.get(address + index, 0) << 8 * index for index in range(4))

    def instruction(self, address):
        """The instruction at an address of the file's loads, or None."""
        return decode(self.word(address)) if address % 4 == 0 and address in self.image.memory else None

    def addresses(self):
        """The addresses of all words of code."""
        return [address for begin, end in self.code for address in range(begin + 3 & ~3, end - 3, 4)]
