"""The mask rules: which bits of a result may change with the secret bits of its two operands.

A rule takes each operand as its value and its mask (v1, m1, v2, m2) and gives the mask of the result. Table 2 has rules
of its own for six classes, and those of table 1 for the others. Table 3 has rules of its own for eleven, by the least
and the greatest that each operand can be as a number without a sign, and those of table 2 for the others."""
from instructions import ALL, sign_extended, signed

TOP = 0x80000000


def upward(bits):
    """The lowest bit of some bits and every bit above it."""
    return (bits | -bits) & ALL


def lowest(bits):
    """The lowest bit of some bits."""
    return bits & -bits


def everything(v1, m1, v2, m2):
    """All bits, where any is secret."""
    return ALL if m1 | m2 else 0


def one_bit(v1, m1, v2, m2):
    """The lowest bit, where any is secret."""
    return int(m1 | m2 > 0)


def carried(v1, m1, v2, m2):
    """The lowest secret bit of both and every bit above it."""
    return upward(m1 | m2)


def masked_and(v1, m1, v2, m2):
    """The secret bits but those where the other operand is surely 0."""
    return (m1 | m2) & (m1 | v1) & (m2 | v2)


def masked_or(v1, m1, v2, m2):
    """The secret bits but those where the other operand is surely 1."""
    return (m1 | m2) & (m1 | ~v1) & (m2 | ~v2)


def shifted(shift):
    """The rule of a shift: its mask goes where its value goes, if the number of places is sure."""
    return lambda v1, m1, v2, m2: ALL if m2 & 31 else shift(m1, v2 & 31) & ALL


TABLE_1 = {
    "add": carried,
    "sub": carried,
    "and": masked_and,
    "or": masked_or,
    "xor": lambda v1, m1, v2, m2: m1 | m2,
    "sll": shifted(lambda mask, places: mask << places),
    "srl": shifted(lambda mask, places: mask >> places),
    "sra": shifted(lambda mask, places: signed(mask) >> places),
    "slt": one_bit,
    "sltu": one_bit,
    "equal": one_bit,
    "mul": carried,
} | dict.fromkeys(("mulh", "mulhsu", "mulhu", "div", "divu", "rem", "remu"), everything)


def bounds(value, mask):
    """The least and the greatest number that a value may be."""
    return value & ~mask & ALL, value | mask


def narrow_add(v1, m1, v2, m2):
    """The secret bits and the places at which the least and the greatest sum differ."""
    (least1, most1), (least2, most2) = bounds(v1, m1), bounds(v2, m2)
    return (m1 | m2 | (most1 + most2) ^ (least1 + least2)) & ALL


def narrow_sub(v1, m1, v2, m2):
    """The secret bits and the places at which the least and the greatest difference differ."""
    (least1, most1), (least2, most2) = bounds(v1, m1), bounds(v2, m2)
    return (m1 | m2 | (most1 - least2) ^ (least1 - most2)) & ALL


def narrow_less(v1, m1, v2, m2):
    """The lowest bit, unless the bounds of both decide."""
    (least1, most1), (least2, most2) = bounds(v1, m1), bounds(v2, m2)
    return int(not (most1 < least2 or least1 >= most2))


def narrow_signed_less(v1, m1, v2, m2):
    """As for numbers without a sign, of values whose highest bit is turned over."""
    return narrow_less(v1 ^ TOP, m1, v2 ^ TOP, m2)


def narrow_equal(v1, m1, v2, m2):
    """The lowest bit, unless a bit that is sure in both differs."""
    secret = m1 | m2
    return int(secret > 0 and (v1 ^ v2) & ~secret & ALL == 0)


def narrow_multiply(v1, m1, v2, m2):
    """Every bit from the lowest one that a secret bit of one can reach with what the other may be."""
    reach1, reach2 = lowest(m1) * lowest(v2 | m2), lowest(m2) * lowest(v1 | m1)
    return upward((reach1 | reach2) & ALL)


TABLE_2 = TABLE_1 | {
    "add": narrow_add,
    "sub": narrow_sub,
    "slt": narrow_signed_less,
    "sltu": narrow_less,
    "equal": narrow_equal,
    "mul": narrow_multiply,
}


def span(first, second):
    """All bits from the highest in which two numbers differ down to the lowest."""
    return (1 << (first ^ second).bit_length()) - 1


def spanned_multiply(v1, m1, v2, m2):
    """That of table 2, of which only the bits below the greatest difference are left where no product is too large."""
    (least1, most1), (least2, most2) = bounds(v1, m1), bounds(v2, m2)
    mask = narrow_multiply(v1, m1, v2, m2)
    return mask & span(least1 * least2, most1 * most2) if most1 * most2 <= ALL else mask


def spanned_high(v1, m1, v2, m2):
    """Between the high halves of the least and of the greatest product."""
    (least1, most1), (least2, most2) = bounds(v1, m1), bounds(v2, m2)
    return span(least1 * least2 >> 32, most1 * most2 >> 32)


def spanned_quotient(v1, m1, v2, m2):
    """Between the least and the greatest quotient, where the divisor is not 0."""
    (least1, most1), (least2, most2) = bounds(v1, m1), bounds(v2, m2)
    return span(least1 // most2, most1 // least2) if least2 else ALL


def spanned_remainder(v1, m1, v2, m2):
    """The mask of what is less than the divisor; else between 0 and the greatest remainder, where that is not 0."""
    (_, most1), (least2, most2) = bounds(v1, m1), bounds(v2, m2)
    if not least2:
        return ALL
    return m1 if most1 < least2 else span(0, min(most1, most2 - 1))


def if_positive(rule, signs=2):
    """A rule where so many operands, the first ones, have no sign; else all bits."""
    return lambda *operands: ALL if any(map(may_be_negative, operands[: 2 * signs])) else rule(*operands)


def may_be_negative(bits):
    """Whether a value or a mask has the highest bit."""
    return bool(bits & TOP)


def if_secret(rule):
    """A rule; nothing where no bit is secret."""
    return lambda v1, m1, v2, m2: rule(v1, m1, v2, m2) if m1 | m2 else 0


def spanned_shift(shift):
    """The rule of a shift: the bits that are 1 in the greatest by some number of places, and 0 in the least by some."""
    def rule(v1, m1, v2, m2):
        least, most = bounds(v1, m1)
        may_be_1, must_be_1 = 0, ALL
        for places in range(32):
            if (places ^ v2) & ~m2 & 31 == 0:
                may_be_1, must_be_1 = may_be_1 | shift(most, places) & ALL, must_be_1 & shift(least, places)
        return may_be_1 & ~must_be_1
    return rule


TABLE_3 = TABLE_2 | {
    name: if_secret(rule) for name, rule in {
        "mul": spanned_multiply,
        "mulhu": spanned_high,
        "mulh": if_positive(spanned_high),
        "mulhsu": if_positive(spanned_high, 1),
        "divu": spanned_quotient,
        "remu": spanned_remainder,
        "div": if_positive(spanned_quotient),
        "rem": if_positive(spanned_remainder),
        "sll": spanned_shift(lambda value, places: value << places),
        "srl": spanned_shift(lambda value, places: value >> places),
        "sra": spanned_shift(lambda value, places: signed(value) >> places),
    }.items()
}
TABLES = {1: TABLE_1, 2: TABLE_2, 3: TABLE_3}
# each operation with the class of its rule: there are nineteen
CLASSES = {name: name for name in TABLE_1 if name != "equal"}
CLASSES |= {"beq": "equal", "bne": "equal", "blt": "slt", "bge": "slt", "bltu": "sltu", "bgeu": "sltu"}


def result_mask(table, name, first, second):
    """The mask of the result of an operation or of a branch, on two operands as (value, mask)."""
    return TABLES[table][CLASSES[name]](*first, *second)


def loaded_mask(name, masks):
    """The mask of what a load gives: the masks of its bytes, and above them copies of the highest bit or zeros."""
    mask = sum(mask << 8 * index for index, mask in enumerate(masks))
    return sign_extended(mask, 8 * len(masks)) & ALL if name in ("lb", "lh") else mask
