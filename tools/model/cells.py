"""What a register or a byte may be inside a region: bits with a mask, or a table over one unknown byte.

An unknown byte is told by where it was named and a number. A table has a value for each of its 256 values, of which
those of its set are still possible; a set is a number with a bit for each of them."""
import collections

from instructions import ALL, compute, is_taken, sign_extended
from rules import loaded_mask, result_mask

Bits = collections.namedtuple("Bits", "value mask")
Table = collections.namedtuple("Table", "unknown values")
NOTHING, TOP = Bits(0, 0), 1 << 31
EQUAL = {("beq", 1), ("bne", 0)}
LESS = {("blt", 1), ("bge", 0), ("bltu", 1), ("bgeu", 0)}


def members(values):
    """The bytes of a set, ascending."""
    while values:
        lowest = values & -values
        yield lowest.bit_length() - 1
        values ^= lowest


def possible(cell, sets):
    """The values that a table may still have."""
    return {cell.values[byte] for byte in members(sets[cell.unknown])}


def covering(values):
    """The bits in which all of some bits agree; the others are 0 with a mask."""
    values = list(values)
    mask = 0
    for bits in values:
        mask |= bits.mask | bits.value ^ values[0].value
    return Bits(values[0].value & ~mask, mask)


def bits_of(cell, sets):
    """The bits of a cell: its own, or what covers its table."""
    if isinstance(cell, Bits):
        return cell
    return covering(Bits(value, 0) for value in possible(cell, sets))


def settled(table, sets):
    """A table, or bits without a mask where its values are all one."""
    values = possible(table, sets)
    return Bits(values.pop(), 0) if len(values) == 1 else table


def unknown_of(cells):
    """The unknown byte over which some cells are tables, all others being bits without a mask; None where there is no
    such byte, or more."""
    unknowns = {cell.unknown for cell in cells if isinstance(cell, Table)}
    is_open = any(isinstance(cell, Bits) and cell.mask for cell in cells)
    return unknowns.pop() if len(unknowns) == 1 and not is_open else None


def at(cell, byte):
    """The value of a cell where its unknown byte is this one."""
    return cell.value if isinstance(cell, Bits) else cell.values[byte]


def tabled(unknown, value_of, sets):
    """What has a value for each of the values of an unknown byte."""
    return settled(Table(unknown, tuple(map(value_of, range(256)))), sets)


def operated(rules, name, first, second, sets):
    """The result of an operation: made for each value, or by the mask rules."""
    unknown = unknown_of([first, second])
    if unknown:
        return tabled(unknown, lambda byte: compute(name, at(first, byte), at(second, byte)), sets)
    first, second = bits_of(first, sets), bits_of(second, sets)
    value = compute(name, first.value, second.value)
    return Bits(value, result_mask(rules, name, first, second) if first.mask | second.mask else 0)


def even(cell, sets):
    """A target, whose lowest bit is cleared."""
    if isinstance(cell, Bits):
        return Bits(cell.value & ~1, cell.mask & ~1)
    return tabled(cell.unknown, lambda byte: cell.values[byte] & ~1, sets)


def extended(name, value):
    """The word that a load gives of its bytes as a number."""
    return sign_extended(value, 8 if name == "lb" else 16) & ALL if name in ("lb", "lh") else value


def joined(numbers):
    """The number whose bytes these are, the lowest first."""
    return sum(number << 8 * index for index, number in enumerate(numbers))


def loaded(name, cells, sets):
    """What a load gives of the cells of its bytes."""
    unknown = unknown_of(cells)
    if unknown:
        return tabled(unknown, lambda byte: extended(name, joined(at(cell, byte) for cell in cells)), sets)
    bits = [bits_of(cell, sets) for cell in cells]
    value = extended(name, joined(one.value for one in bits))
    return Bits(value, loaded_mask(name, [one.mask for one in bits]))


def part(cell, index, sets):
    """A byte of a word, as a store writes it."""
    if isinstance(cell, Bits):
        return Bits(cell.value >> 8 * index & 255, cell.mask >> 8 * index & 255)
    return tabled(cell.unknown, lambda byte: cell.values[byte] >> 8 * index & 255, sets)


def united(first, sets, second, others):
    """What two cells are together, and the unknown byte whose sets have to be united, if there is one."""
    if isinstance(first, Table) and first == second:
        return first, first.unknown
    return covering([bits_of(first, sets), bits_of(second, others)]), None


def submasks(mask):
    """The numbers under a mask, ascending."""
    number = 0
    while True:
        yield number
        if number == mask:
            return
        number = (number - mask) & mask


def values_under(bits):
    """The values that agree with some bits, ascending."""
    return [bits.value & ~bits.mask | number for number in submasks(bits.mask)]


def named(bits):
    """The values of some bits as a table, behind which the first stands again, and the set of those that there are."""
    values = values_under(bits)
    return tuple(values + values[:1] * (256 - len(values))), (1 << len(values)) - 1


def ways_of(rules, name, first, second, sets):
    """A decision: 0 or 1 where it is known; else None, with the sets of the bytes with which each way is gone where it
    was made for each value."""
    unknown = unknown_of([first, second])
    if unknown:
        sides = [0, 0]
        for byte in members(sets[unknown]):
            sides[is_taken(name, at(first, byte), at(second, byte))] |= 1 << byte
        return (None, (unknown, sides)) if all(sides) else (int(sides[0] == 0), None)
    first, second = bits_of(first, sets), bits_of(second, sets)
    if (first.mask | second.mask) and result_mask(rules, name, first, second) & 1:
        return None, None
    return is_taken(name, first.value, second.value), None


def greatest(bits):
    """The greatest number that some bits may be."""
    return bits.value | bits.mask


def with_told(bits, told, value):
    """Bits of which those under a mask are told; None where one is known to be otherwise."""
    if (bits.value ^ value) & told & ~bits.mask:
        return None
    return Bits(bits.value & ~told | value & told, bits.mask & ~told)


def above(number):
    """All bits above the highest bit of a number."""
    return ALL & ~((1 << number.bit_length()) - 1)


def told_less(first, second, is_less):
    """What is told of two numbers without a sign of which the first is less, or is not."""
    if not is_less:
        return first, with_told(second, above(greatest(first)), 0)
    return with_told(first, above(greatest(second) - 1), 0) if greatest(second) else None, second


def told_signed(first, second, is_less):
    """What is told of two numbers with a sign."""
    if not (greatest(first) | greatest(second)) & TOP:
        return told_less(first, second, is_less)
    if second == NOTHING:
        return with_told(first, TOP, TOP if is_less else 0), second
    if is_less and first == NOTHING:
        return first, with_told(second, TOP, 0)
    return first, second


def told_equal(first, second):
    """What is told of two numbers that are one."""
    return with_told(first, ALL & ~second.mask, second.value), with_told(second, ALL & ~first.mask, first.value)


def told_other(first, second):
    """What is told of two numbers that differ."""
    if not first.mask | second.mask:
        return (first, second) if first.value != second.value else (None, None)
    if (first.mask | second.mask).bit_count() > 1 or first.mask and second.mask:
        return first, second
    if (first.value ^ second.value) & ~(first.mask | second.mask):
        return first, second
    return (with_told(first, first.mask, ~second.value & ALL) if first.mask else first,
            with_told(second, second.mask, ~first.value & ALL) if second.mask else second)


def told(name, is_taken_way, first, second):
    """What a way of a decision tells of its operands; None for one with which no state goes that way."""
    if name in ("beq", "bne"):
        return (told_equal if (name, is_taken_way) in EQUAL else told_other)(first, second)
    rule = told_signed if name in ("blt", "bge") else told_less
    return rule(first, second, (name, is_taken_way) in LESS)
