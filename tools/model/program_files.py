"""Program files: the head of an ELF file for RV32, the header of a load, and the file of one load.

It stands alone, so that what knows nothing of the model can have its programs from it."""
import struct

BASE, HEAD_SIZE, HEADER_SIZE = 0x10000, 52, 32
EXECUTABLE, RISC_V, LOAD, ALL_ACCESS = 2, 243, 1, 7


def file_head(entry, place, count, identity=bytes(9), version=1, sections=0, flags=0, free=(HEAD_SIZE, 0, 0, 0)):
    """The head of a file with so many program headers at a place. What no loader of programs looks at may be anything:
    the rest of the identity, the version, the place of the sections, the flags, and four numbers of sizes."""
    first, *last = free
    fields = EXECUTABLE, RISC_V, version, entry, place, sections, flags, first, HEADER_SIZE, count, *last
    return b"\x7fELF\x01\x01\x01" + identity + struct.pack("<HHIIIIIHHHHHH", *fields)


def load_header(place, address, size, length, free=None):
    """The header of a load: so many bytes of the file from a place on, which are so many at an address. Three fields
    may be anything: the physical address, the access and the alignment."""
    physical, *last = free or (address, ALL_ACCESS, 1)
    return struct.pack("<8I", LOAD, place, address, physical, size, length, *last)


def plain_file(body, address=BASE):
    """The program file of one load, which begins with its entry."""
    place = HEAD_SIZE + HEADER_SIZE
    return file_head(address, HEAD_SIZE, 1) + load_header(place, address, len(body), len(body)) + body


def packed(words):
    """The bytes of words."""
    return struct.pack(f"<{len(words)}I", *words)
