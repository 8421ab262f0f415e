"""The run of a region on pieces, which shows that no run breaks it, and what comes out of it.

A piece stands for all states that may have come so far on one way. Pieces make turns until none is left: at a decision
that may go both ways there are two, and where two come to one place they are joined. What a piece has at the leave is
an ending."""
import heapq

from cells import (
    Bits, Table, bits_of, covering, even, extended, joined, loaded, named, operated, part,
    possible, settled, told, united, values_under, ways_of,
)
from guest import shown
from instructions import ALL, WIDTHS, decode

MOST_WAITING, MOST_STEPS, MOST_NAMED, MOST_ADDRESS_BITS = 64, 67_108_864, 8, 12
NAMES_FIRST = ("jump_register", "branch", "load", "store", "immediate", "register")
NAMES_SECOND = ("branch", "register")


class NotShown(Exception):
    """It was not shown that a region holds; the text is the reason."""


class Piece:
    """The cells of the registers and of the bytes that were written, the program counter, the turns that were made
    since the entry, and the set of each unknown byte."""

    def __init__(self, registers, written, pc, turns, sets):
        self.registers, self.written, self.pc, self.turns, self.sets = registers, written, pc, turns, sets

    def copied(self):
        """The same piece, to go another way."""
        return Piece(list(self.registers), dict(self.written), self.pc, self.turns, dict(self.sets))

    def set_register(self, number, cell):
        """Writes a register; x0 stays 0."""
        if number:
            self.registers[number] = cell

    def fresh(self, place):
        """A new unknown byte of a place."""
        taken = {cell.unknown for cell in (*self.registers, *self.written.values()) if isinstance(cell, Table)}
        number = 0
        while (place, number) in taken:
            number += 1
        return place, number

    def name_register(self, number):
        """A register with few bits that may differ becomes a table."""
        cell = self.registers[number]
        if isinstance(cell, Bits) and 1 <= cell.mask.bit_count() <= MOST_NAMED:
            unknown = self.fresh(f"x{number}")
            values, self.sets[unknown] = named(cell)
            self.registers[number] = Table(unknown, values)

    def limit(self, unknown, values):
        """Leaves some values of an unknown byte; whether there is one."""
        self.sets[unknown] &= values
        return self.sets[unknown] != 0

    def tell(self, number, bits):
        """What is told of a register; whether a state has it so."""
        cell = self.registers[number]
        if bits is None:
            return False
        if isinstance(cell, Bits):
            self.set_register(number, bits)
            return True
        agreeing = (byte for byte in range(256) if not (cell.values[byte] ^ bits.value) & ~bits.mask)
        return self.limit(cell.unknown, sum(1 << byte for byte in agreeing))


class Ending:
    """The cells of the outputs of a region, and the sets of their unknown bytes."""

    def __init__(self, cells, sets):
        self.cells, self.sets = cells, dict(sets)

    def values(self, index, bit):
        """The values that a bit of an output may have."""
        cell = self.cells[index]
        if isinstance(cell, Bits):
            return {0, 1} if cell.mask >> bit & 1 else {cell.value >> bit & 1}
        return {value >> bit & 1 for value in possible(cell, self.sets)}

    def keep(self, index, bit, value):
        """Leaves what has this value at a bit; whether there is anything."""
        cell = self.cells[index]
        if isinstance(cell, Bits):
            return bool(cell.mask >> bit & 1) or cell.value >> bit & 1 == value
        self.sets[cell.unknown] &= sum(1 << byte for byte in range(256) if cell.values[byte] >> bit & 1 == value)
        return self.sets[cell.unknown] != 0


class Endings:
    """The endings that are still possible."""

    def __init__(self, endings):
        self.endings = [Ending(ending.cells, ending.sets) for ending in endings]

    def known(self, index, bit):
        """The one value that a bit of an output has, or None."""
        values = set().union(*(ending.values(index, bit) for ending in self.endings))
        return values.pop() if len(values) == 1 else None

    def keep(self, index, bit, value):
        """Leaves the endings that may have this value at a bit."""
        self.endings = [ending for ending in self.endings if ending.keep(index, bit, value)]

    def bits(self, index):
        """What an output may be."""
        return covering(bits_of(ending.cells[index], ending.sets) for ending in self.endings)


def is_alike(first, sets, second, others):
    """Whether cells have masks at the same places, and the same values at all others."""
    for one, other in zip(first, second):
        one, other = bits_of(one, sets), bits_of(other, others)
        if bool(one.mask) != bool(other.mask) or not one.mask and one.value != other.value:
            return False
    return True


def unite(pairs, sets, others):
    """The cells that pairs of cells are together, and the sets of their unknown bytes."""
    cells, unknowns = [], set()
    for first, second in pairs:
        cell, unknown = united(first, sets, second, others)
        cells.append(cell)
        unknowns |= {unknown} - {None}
    return cells, {unknown: sets[unknown] | others[unknown] for unknown in unknowns}


class RegionRun:
    """The run of a region from a place of a walk before its entry, whose masks are known, with so many turns left of a
    limit. `turns` and `endings` are what it finds."""

    def __init__(self, rules, guest, masks, region, starts, left, limit):
        self.rules, self.guest, self.masks, self.region = rules, guest, masks, region
        self.left, self.limit = left, limit
        self.spans = [(start, start + length) for start, (_, _, length) in zip(starts, region.ranges)]
        self.turns, self.endings, self.steps, self.joins, self.most_waiting = 0, [], 0, 0, 1
        self.waiting, self.order = {}, []
        registers = [Bits(*pair) for pair in zip(guest.registers, masks.registers)]
        self.arrive(Piece(registers, {}, region.enter, 1, {}))
        while self.order:
            self.make_turn(self.next())

    # ---- the front

    def place(self, piece):
        """Where a piece waits: its stack pointer and its program counter."""
        return bits_of(piece.registers[2], piece.sets).value, piece.pc

    def arrive(self, piece):
        """A piece comes to a place, where it may be joined to one that waits."""
        place = self.place(piece)
        if place not in self.waiting:
            heapq.heappush(self.order, place)
        waiting = self.waiting.setdefault(place, [])
        alike = (other for other in waiting if is_alike(other.registers, other.sets, piece.registers, piece.sets))
        other = next(alike, waiting[-1] if len(waiting) >= MOST_WAITING else None)
        if other is None:
            waiting.append(piece)
        else:
            self.joins += 1
            self.join(other, piece)
        self.most_waiting = max(self.most_waiting, sum(map(len, self.waiting.values())))

    def join(self, piece, other):
        """A piece becomes what it and another are together."""
        addresses = sorted({*piece.written, *other.written})
        pairs = list(zip(piece.registers, other.registers))
        pairs += [(self.byte(piece, address), self.byte(other, address)) for address in addresses]
        cells, sets = unite(pairs, piece.sets, other.sets)
        piece.registers, piece.written, piece.sets = cells[:32], dict(zip(addresses, cells[32:])), sets
        piece.turns = max(piece.turns, other.turns)

    def next(self):
        """The piece that goes on."""
        waiting = self.waiting[self.order[0]]
        piece = waiting.pop(0)
        if not waiting:
            del self.waiting[heapq.heappop(self.order)]
        return piece

    # ---- memory

    def byte(self, piece, address):
        """The cell of a byte."""
        return piece.written.get(address) or Bits(self.guest.byte(address), self.masks.byte(address))

    def addresses(self, piece, cell):
        """The addresses that a cell may be, ascending."""
        if isinstance(cell, Table):
            return sorted(possible(cell, piece.sets))
        if cell.mask.bit_count() > MOST_ADDRESS_BITS:
            raise NotShown(f"left {self.region.number} {shown(piece.pc)} ad mask {shown(cell.mask)}")
        return values_under(cell)

    def reached(self, piece, cell, width, kind):
        """The addresses that a cell may be, all of which must be inside memory with so many bytes."""
        addresses = self.addresses(piece, cell)
        for address in addresses:
            if not self.guest.is_inside(address, width):
                raise NotShown(f"guest {kind}-outside {shown(piece.pc)} address {shown(address)}")
        return addresses

    # ---- what is declared

    def undeclared(self, piece, what):
        """What is written is not declared."""
        raise NotShown(f"region {self.region.number} undeclared {what} at {shown(piece.pc)}")

    def write(self, piece, number, cell):
        """Writes a register, which must be declared."""
        if number and number not in self.region.outs and number not in self.region.keep:
            self.undeclared(piece, f"x{number}")
        piece.set_register(number, cell)

    def declare(self, piece, address):
        """A byte that may be written must be declared."""
        if not any(start <= address < end for start, end in self.spans):
            self.undeclared(piece, shown(address))

    # ---- turns

    def make_turn(self, piece):
        """Makes the turn of a piece; each that it becomes comes to a place."""
        if piece.turns + 1 > self.left:
            raise NotShown(f"turns {self.limit}")
        if self.steps == MOST_STEPS:
            raise NotShown(f"steps {MOST_STEPS}")
        self.steps += 1
        piece.turns += 1
        if piece.pc == self.region.leave:
            self.leave(piece)
            return
        instruction = self.fetch(piece)
        if instruction.form in NAMES_FIRST:
            piece.name_register(instruction.first)
        if instruction.form in NAMES_SECOND:
            piece.name_register(instruction.second)
        for later in FORMS[instruction.form](self, piece, instruction):
            self.arrive(later)

    def fetch(self, piece):
        """The instruction that a piece makes."""
        pc = piece.pc
        if not self.guest.is_inside(pc, 4):
            raise NotShown(f"guest fetch-outside {shown(pc)}")
        cells = [bits_of(self.byte(piece, pc + index), piece.sets) for index in range(4)]
        if any(cell.mask for cell in cells):
            raise NotShown(f"secret-code {shown(pc)}")
        word = joined(cell.value for cell in cells)
        instruction = decode(word)
        if instruction is None:
            raise NotShown(f"guest illegal {shown(pc)} word {shown(word)}")
        if instruction.form == "breakpoint":
            raise NotShown(f"guest breakpoint {shown(pc)}")
        if instruction.form == "call":
            raise NotShown(f"region {self.region.number} call at {shown(pc)}")
        return instruction

    def going(self, piece, target=None):
        """A piece that goes on behind its instruction, or at a target."""
        if target is not None and target % 4:
            raise NotShown(f"guest fetch-unaligned {shown(piece.pc)}")
        piece.pc = (piece.pc + 4) & ALL if target is None else target
        return piece

    def upper(self, piece, instruction):
        """LUI and AUIPC."""
        base = piece.pc if instruction.name == "auipc" else 0
        self.write(piece, instruction.destination, Bits((base + instruction.immediate) & ALL, 0))
        yield self.going(piece)

    def fence(self, piece, _):
        """FENCE."""
        yield self.going(piece)

    def jump(self, piece, instruction):
        """JAL."""
        following, target = Bits((piece.pc + 4) & ALL, 0), (piece.pc + instruction.immediate) & ALL
        pc = piece.pc
        self.going(piece, target)
        piece.pc = pc
        self.write(piece, instruction.destination, following)
        yield self.going(piece, target)

    def sum(self, piece, instruction):
        """The register and the immediate of an instruction, added."""
        first = piece.registers[instruction.first]
        return operated(self.rules, "add", first, Bits(instruction.immediate & ALL, 0), piece.sets)

    def jump_register(self, piece, instruction):
        """JALR: a piece for each target that a table says."""
        cell, pc, following = even(self.sum(piece, instruction), piece.sets), piece.pc, Bits((piece.pc + 4) & ALL, 0)
        if isinstance(cell, Bits) and cell.mask:
            raise NotShown(f"left {self.region.number} {shown(pc)} ad mask {shown(cell.mask)}")
        targets = self.addresses(piece, cell)
        for target in targets:
            if target % 4:
                raise NotShown(f"guest fetch-unaligned {shown(pc)}")
        self.write(piece, instruction.destination, following)
        for target in targets:
            later = piece.copied()
            if isinstance(cell, Table):
                later.limit(cell.unknown, sum(1 << byte for byte in range(256) if cell.values[byte] == target))
            yield self.going(later, target)

    def branch(self, piece, instruction):
        """A branch: its way where that is known, else both, that of the branch first."""
        first, second = piece.registers[instruction.first], piece.registers[instruction.second]
        decision, sides = ways_of(self.rules, instruction.name, first, second, piece.sets)
        target = (piece.pc + instruction.immediate) & ALL
        if decision is not None:
            yield self.going(piece, target if decision else None)
            return
        for way in (1, 0):
            later = piece.copied()
            if self.goes(later, instruction, way, sides):
                yield self.going(later, target if way else None)

    def goes(self, piece, instruction, way, sides):
        """Tells a piece what a way of a decision says; whether a state goes that way."""
        if sides:
            unknown, values = sides
            return piece.limit(unknown, values[way])
        numbers = instruction.first, instruction.second
        bits = [bits_of(piece.registers[number], piece.sets) for number in numbers]
        return all(piece.tell(number, one) for number, one in zip(numbers, told(instruction.name, way, *bits)))

    def load(self, piece, instruction):
        """A load."""
        name, width, cell = instruction.name, WIDTHS[instruction.name], self.sum(piece, instruction)
        addresses = self.reached(piece, cell, width, "load")
        if len(addresses) == 1:
            result = self.loaded_at(piece, name, addresses[0], width)
        else:
            result = self.loaded_anywhere(piece, name, cell, addresses, width)
        self.write(piece, instruction.destination, result)
        yield self.going(piece)

    def cells_at(self, piece, address, width):
        """The cells of so many bytes."""
        return [self.byte(piece, address + index) for index in range(width)]

    def loaded_at(self, piece, name, address, width):
        """What is loaded at a known address; a byte that may differ is named."""
        cell = self.byte(piece, address)
        if width == 1 and isinstance(cell, Bits) and cell.mask:
            unknown = piece.fresh(shown(address))
            piece.sets[unknown] = sum(1 << byte for byte in values_under(cell))
            piece.written[address] = Table(unknown, tuple(range(256)))
        return loaded(name, self.cells_at(piece, address, width), piece.sets)

    def loaded_anywhere(self, piece, name, cell, addresses, width):
        """What is loaded at one of several addresses."""
        bits = {address: self.clean_bytes(piece, address, width) for address in addresses}
        if isinstance(cell, Table) and all(one is not None for one in bits.values()):
            values = [self.value_at(piece, name, address, width) for address in cell.values]
            return settled(Table(cell.unknown, tuple(values)), piece.sets)
        cells = [loaded(name, self.cells_at(piece, address, width), piece.sets) for address in addresses]
        return covering(bits_of(one, piece.sets) for one in cells)

    def clean_bytes(self, piece, address, width):
        """The bytes at an address, where none may differ; else None."""
        cells = [bits_of(cell, piece.sets) for cell in self.cells_at(piece, address, width)]
        return None if any(cell.mask for cell in cells) else [cell.value for cell in cells]

    def value_at(self, piece, name, address, width):
        """What is loaded at an address; 0 where it is not inside memory, or a byte may differ."""
        numbers = self.clean_bytes(piece, address, width) if self.guest.is_inside(address, width) else None
        return extended(name, joined(numbers)) if numbers else 0

    def store(self, piece, instruction):
        """A store."""
        width, value = WIDTHS[instruction.name], piece.registers[instruction.second]
        addresses = self.reached(piece, self.sum(piece, instruction), width, "store")
        for address in addresses:
            for index in range(width):
                self.declare(piece, address + index)
        parts = [part(value, index, piece.sets) for index in range(width)]
        if len(addresses) == 1:
            piece.written.update((addresses[0] + index, cell) for index, cell in enumerate(parts))
        else:
            self.store_anywhere(piece, addresses, [bits_of(cell, piece.sets) for cell in parts])
        yield self.going(piece)

    def store_anywhere(self, piece, addresses, parts):
        """A store at one of several addresses: each byte may stay, or be written."""
        written = {}
        for address in addresses:
            for index, bits in enumerate(parts):
                written.setdefault(address + index, []).append(bits)
        for address, bits in written.items():
            piece.written[address] = covering([bits_of(self.byte(piece, address), piece.sets), *bits])

    def immediate(self, piece, instruction):
        """Arithmetic with an immediate."""
        first, second = piece.registers[instruction.first], Bits(instruction.immediate & ALL, 0)
        result = operated(self.rules, instruction.name, first, second, piece.sets)
        self.write(piece, instruction.destination, result)
        yield self.going(piece)

    def register(self, piece, instruction):
        """Arithmetic with two registers."""
        first, second = piece.registers[instruction.first], piece.registers[instruction.second]
        result = operated(self.rules, instruction.name, first, second, piece.sets)
        self.write(piece, instruction.destination, result)
        yield self.going(piece)

    # ---- the leave

    def leave(self, piece):
        """The leave: kept registers must be what they were, and there is an ending more."""
        for number in self.region.keep:
            cell, before = bits_of(piece.registers[number], piece.sets), self.guest.registers[number]
            if cell.mask or self.masks.registers[number] or cell.value != before:
                text = f"keep x{number} before {shown(before)} after {shown(cell.value)}"
                raise NotShown(f"region {self.region.number} {text}")
        self.turns = max(self.turns, piece.turns)
        cells = [piece.registers[number] for number in self.region.outs]
        cells += [self.byte(piece, address) for start, end in self.spans for address in range(start, end)]
        self.end(Ending(cells, piece.sets))

    def end(self, ending):
        """An ending comes, which may be joined to one that is there."""
        alike = (other for other in self.endings if is_alike(other.cells, other.sets, ending.cells, ending.sets))
        other = next(alike, self.endings[-1] if len(self.endings) >= MOST_WAITING else None)
        if other is None:
            self.endings.append(ending)
        else:
            other.cells, other.sets = unite(zip(other.cells, ending.cells), other.sets, ending.sets)


FORMS = {form: getattr(RegionRun, form) for form in (
    "upper", "jump", "jump_register", "branch", "load", "store", "immediate", "register", "fence"
)}
