"""Whole random programs, and their program files in many shapes."""
from carriers import Carriers
from forks import Forks
from instructions import ALL
from program_files import HEAD_SIZE, HEADER_SIZE, file_head, load_header, packed
from words import store_word

ROOM = 0x400
OTHER_HEADERS = (0, 4, 6, 7, 0x6474E550, 0x6474E551, 0x70000003)
BASES = [0x10000] * 12 + [0x80000000, 0, 0xFEFFF000, 0x7FFFF000, 0x40000000]


def random_bytes(dice, count):
    """So many random bytes."""
    return bytes(dice.randrange(256) for _ in range(count))


def begin_program(dice, make=Forks):
    """A program that sets register 8 to the address of its data, which may be near the end of a page."""
    base = dice.choice(BASES)
    code = base + dice.choice([0, 0, 0, 0, 4, 0x10, 0x700, 0xFFC])
    data = code + ROOM
    if dice.random() < 0.15:
        data = (code + ROOM + 0xFFF & ~0xFFF) - dice.choice([0, 2, 4, 8])
        data += 0x1000 if data < code + ROOM else 0
    program = make(dice, code, data)
    program.put_number(8, data)
    return program


def usual_program(dice):
    """A program that reads, computes, calls and at last writes and exits, perhaps with strange pieces."""
    program = begin_program(dice)
    if program.happens(0.9):
        program.read(3, 0, dice.choice([1, 2, 4, 8, ALL, ALL, ALL]))
    if program.happens(0.4):
        program.read(0, 8, dice.choice([1, 4, 8]))
    for _ in range(dice.randint(1, 4)):
        program.load(dice.choice(program.pool), dice.randrange(4))
    is_strange = program.happens(0.4)
    for _ in range(dice.randint(1, 4)):
        program.block(dice.randint(1, 7))
        for _ in range(dice.choice([0, 1, 1, 1, 2])):
            program.any_call()
        if is_strange and program.happens(0.5):
            dice.choice([program.fork, program.oddity])()
    if program.happens(0.8):
        program.put(store_word(dice.choice([0, 2]), 8, program.any_register(), dice.randrange(8)))
        program.write()
    if program.happens(0.6):
        program.write_state()
    if program.happens(0.97):
        program.exit()
    return program


def forked_program(dice):
    """A short program around one fork, which it may come to several times."""
    program = begin_program(dice)
    program.read(3, 0, ALL)
    if program.happens(0.5):
        program.block(dice.randint(1, 3))
    top = program.begin_rounds(dice.choice([1, 1, 2, 3]))
    program.fork()
    program.block(dice.randint(1, 3))
    program.end_rounds(top)
    if program.happens(0.7):
        dice.choice([program.write, program.write_state])()
    program.exit()
    return program


def summing_program(dice):
    """A short program that sums up what a table says of its secret, and writes the sum."""
    program = begin_program(dice, Carriers)
    program.read(3, 0, ALL)
    program.look_up()
    if program.happens(0.3):
        program.block(dice.randint(1, 2))
    program.show_all()
    program.exit()
    return program


def carrying_program(dice):
    """A program that carries its secret many ways, perhaps several times, and writes between."""
    if dice.random() < 0.15:
        return summing_program(dice)
    program = begin_program(dice, Carriers)
    program.read(3, 0, dice.choice([1, 2, 4, 8, ALL, ALL, ALL]))
    if program.happens(0.2):
        program.read(0, 8, 4)
    top = program.begin_rounds(dice.choice([1, 1, 1, 1, 2, 3, 5]))
    for _ in range(dice.randint(1, 3)):
        program.block(dice.randint(1, 6))
        for _ in range(dice.choice([0, 0, 1, 1, 2])):
            dice.choice([program.write, program.call_by_last, program.any_call])()
    if program.happens(0.12):
        dice.choice([program.fork, program.spoil_code, program.spoil_code, program.oddity])()
    program.end_rounds(top)
    if program.happens(0.8):
        dice.choice([program.write_state, program.show_all, program.show_all])()
    program.exit()
    return program


def random_program(dice, make):
    """A program that fits before its data, made so, and its file."""
    while True:
        program = make(dice)
        body = program.body()
        if len(body) <= ROOM:
            return program, program_file(dice, segments_of(dice, program, body), entry_of(dice, program))


def entry_of(dice, program):
    """The entry: mostly the first word."""
    return program.code + (4 * dice.randrange(len(program.words)) if dice.random() < 0.03 else 0)


def segments_of(dice, program, body):
    """The loads as (address, bytes, length in memory): the code, and perhaps the data."""
    first = dice.choice([0, 0, 4, 16, 40])
    if first == 0 and dice.random() < 0.7:
        return [(program.code, body, len(body) + dice.choice([0, 0, 1, 64, 0x1000]))]
    space = min(len(body) + dice.choice([0, 1, 64]), program.data - program.code)
    data = random_bytes(dice, first)
    return [(program.code, body, space), (program.data, data, max(first, dice.choice([1, 64, 0x80])))]


def other_header(dice):
    """A program header that says nothing of memory: a load of no bytes, or one of another kind."""
    fields = [dice.choice(OTHER_HEADERS)] + [dice.randrange(1 << 32) for _ in range(7)]
    if dice.random() < 0.25:
        fields[0], fields[5] = 1, 0
    return packed(fields)


def any_load_header(dice, place, segment):
    """The program header of a load."""
    address, data, length = segment
    free = dice.randrange(1 << 32), dice.randrange(1 << 32), dice.choice([0, 1, 4096, 3])
    return load_header(place, address, len(data), length, free)


def program_file(dice, segments, entry):
    """A program file with these loads: headers in any order, before or behind the bytes, with gaps, and fields of which
    nothing is said at random."""
    segments = dice.sample(segments, len(segments))
    others, gap = dice.choice([0, 0, 1, 3]), dice.choice([0, 0, 5, 52, 100])
    is_behind = dice.random() < 0.3
    size = HEADER_SIZE * (len(segments) + others)
    begin = HEAD_SIZE + gap + (0 if is_behind else size)
    data, headers = b"", []
    for segment in segments:
        headers.append(any_load_header(dice, begin + len(data), segment))
        data += segment[1] + bytes(dice.choice([0, 0, 3, 7]))
    headers += [other_header(dice) for _ in range(others)]
    table = b"".join(dice.sample(headers, len(headers)))
    place = begin + len(data) if is_behind else HEAD_SIZE + gap
    rest = random_bytes(dice, gap) + (data + table if is_behind else table + data)
    free = [dice.randrange(1 << 16) for _ in range(4)]
    identity, version = random_bytes(dice, 9), dice.randrange(1 << 32)
    sections, flags = dice.randrange(1 << 32), dice.randrange(1 << 31) * 2
    return file_head(entry, place, len(headers), identity, version, sections, flags, free) + rest
