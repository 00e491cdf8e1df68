"""Packed words: the fields of an inner word, the bits of a leaf word, and the two masked operations on them.

A word is a number below 2^64. It is taken apart into its bits or its fields, changed there, and put together again:
no mask, no shift and no carry between fields, so that nothing of the packing is assumed.
"""

from typing import NamedTuple

BITS = 64


class Inner(NamedTuple):
    """Inner word, from bit 63 down: Exp 1 bit, Occ 1, TCnt 15, TMax 15, DCnt 16, DMax 16."""

    exp: int
    occ: int
    tcnt: int
    tmax: int
    dcnt: int
    dmax: int


WIDTH = Inner(exp=1, occ=1, tcnt=15, tmax=15, dcnt=16, dmax=16)


class Swap(NamedTuple):
    """What a masked compare-and-swap gives: whether it was done, and the word after it."""

    done: bool
    word: int


def shift(name):
    """The place of a field's lowest bit: the widths of the fields below it."""
    below = Inner._fields[Inner._fields.index(name) + 1:]
    return sum(getattr(WIDTH, field) for field in below)


def unpack(word):
    """The fields of an inner word, cut from its 64 binary digits in the order of the document."""
    digits = format(word, "064b")
    values, start = [], 0
    for width in WIDTH:
        values.append(int(digits[start:start + width], 2))
        start += width
    return Inner(*values)


def pack(inner):
    """The word that has these fields."""
    return int("".join(format(value, f"0{width}b") for value, width in zip(inner, WIDTH)), 2)


def wrapped(value, width):
    """Each field wraps by itself."""
    return value % 2 ** width


def add(word, name, delta):
    """A masked fetch-add: adds within a field, and nothing is carried into its neighbour."""
    inner = unpack(word)
    total = wrapped(getattr(inner, name) + delta, getattr(WIDTH, name))
    return pack(inner._replace(**{name: total}))


def add_fields(word, deltas):
    """One masked fetch-add over all six fields: the field of `deltas` at each place is added to the field of `word` there."""
    pairs = zip(unpack(word), unpack(deltas), WIDTH)
    return pack(Inner(*(wrapped(value + delta, width) for value, delta, width in pairs)))


def return_occ(word):
    """Occ set: Occ - 1 and TCnt + 1 in one add."""
    inner = unpack(word)
    occ = wrapped(inner.occ - 1, WIDTH.occ)
    tcnt = wrapped(inner.tcnt + 1, WIDTH.tcnt)
    return pack(inner._replace(occ=occ, tcnt=tcnt))


def bits(word):
    """The 64 bits as booleans, bit 0 (the lowest) first."""
    return [digit == "1" for digit in reversed(format(word, "064b"))]


def number(flags):
    """The number that has these bits, bit 0 first."""
    return int("".join("1" if flag else "0" for flag in reversed(flags)), 2)


def field_at(word, low, width):
    """The field of `width` bits whose lowest bit is bit `low`."""
    return number(bits(word)[low:low + width])


def add_field_at(word, low, width, delta):
    """The word with `delta` added within that field, which wraps by itself, and every other bit as it was."""
    flags = bits(word)
    total = wrapped(field_at(word, low, width) + delta, width)
    flags[low:low + width] = bits(total)[:width]
    return number(flags)


def wanted(edge, l, r):
    """The wanted bits of the leaf whose first unit is `edge`: bit b (0 is lowest) is unit b of the leaf."""
    return number([l <= edge + b < r for b in range(BITS)])


def masked_swap(word, compare_mask, expected, swap_mask, value):
    """A masked compare-and-swap compares and sets only the bits under its masks."""
    old, new = bits(word), bits(value)
    compared, swapped, hoped = bits(compare_mask), bits(swap_mask), bits(expected)
    if any(compared[b] and old[b] != hoped[b] for b in range(BITS)):
        return Swap(False, word)
    return Swap(True, number([new[b] if swapped[b] else old[b] for b in range(BITS)]))


def take_bits(word, wanted_bits):
    """Claim at a leaf: swap the wanted bits from all 0 to all 1."""
    return masked_swap(word, wanted_bits, 0, wanted_bits, wanted_bits)


def give_bits(word, wanted_bits):
    """Leaf bits taken: swap them from all 1 to all 0."""
    return masked_swap(word, wanted_bits, wanted_bits, wanted_bits, 0)
