"""Floats of IEEE 754 as the patterns of their bits: how they are read and shown, and what operations make of two (MPI 3.1, 5.9.2).

Python's floats are binary64. A sum or a product of two floats of four bytes is made in binary64 and rounded once more, which gives the
nearest one (53 digits are more than twice 24 and two more); a text is rounded once, by fractions.
"""

import decimal
import fractions
import math
import re
import struct

# Each type of floats: the letter by which `struct` packs it and the pattern's, the bits of its fraction, and the NaN that operations make.
FLOATS = {"float32": ("f", "I", 23, 0x7FC00000), "float64": ("d", "Q", 52, 0x7FF8000000000000)}
TEXT = re.compile(r"[+-]?([0-9]+\.?[0-9]*([eE][+-]?[0-9]+)?|\.[0-9]+([eE][+-]?[0-9]+)?|inf|infinity|nan)", re.IGNORECASE)


def value_of(kind, pattern):
    """The float whose bits these are."""
    letter, word, _, _ = FLOATS[kind]
    return struct.unpack(">" + letter, struct.pack(">" + word, pattern))[0]


def pattern_of(kind, value):
    """The bits of a float, rounded to its type."""
    letter, word, _, nan = FLOATS[kind]
    if math.isnan(value):
        return nan
    try:
        return struct.unpack(">" + word, struct.pack(">" + letter, value))[0]
    except OverflowError:
        return struct.unpack(">" + word, struct.pack(">" + letter, math.copysign(math.inf, value)))[0]


def nearest(kind, exact, pattern):
    """Of a pattern above zero and its neighbours the nearest to a fraction, of two the even one."""
    def distance(candidate):
        value = value_of(kind, candidate)
        if not math.isinf(value):
            return abs(exact - fractions.Fraction(value))
        # Infinity stands where the float behind the greatest one would.
        one, two = (fractions.Fraction(value_of(kind, candidate - it)) for it in (1, 2))
        return abs(exact - (2 * one - two))

    near = [it for it in (pattern - 1, pattern, pattern + 1) if it >= 0]
    candidates = [it for it in near if not math.isnan(value_of(kind, it))]
    return min(candidates, key=lambda candidate: (distance(candidate), candidate % 2))


def read(kind, word):
    """The bits of the float that is nearest to what a word says; None where it says no number."""
    if TEXT.fullmatch(word) is None:
        return None
    value = float(word)
    pattern = pattern_of(kind, value)
    is_far_above = math.isinf(value_of(kind, pattern)) and abs(value) > 1e39
    if kind == "float64" or math.isnan(value) or math.isinf(value) or value == 0 or is_far_above:
        return pattern
    sign = pattern & 0x80000000
    return sign | nearest(kind, abs(fractions.Fraction(decimal.Decimal(word))), pattern & 0x7FFFFFFF)


def text(kind, pattern):
    """The value of a float in decimal, in full."""
    value = value_of(kind, pattern)
    if math.isnan(value):
        return "nan"
    return str(value) if math.isinf(value) else f"{decimal.Decimal(value):f}"


def place(kind, pattern):
    """The place of a pattern in the order of its type, in which -0 stands below 0."""
    top = 1 << (8 * struct.calcsize(FLOATS[kind][0]) - 1)
    return pattern + top if pattern < top else 2 * top - 1 - pattern


def greater(kind, one, other, is_greater):
    """The one of two that is_greater prefers by its place; a NaN, where one is a NaN."""
    if math.isnan(value_of(kind, one)):
        return one
    if math.isnan(value_of(kind, other)):
        return other
    return other if is_greater(place(kind, other), place(kind, one)) else one


def combined(operation, kind, one, other):
    """What an operation makes of two patterns, the lower rank's first."""
    if operation in ("max", "min"):
        return greater(kind, one, other, (lambda a, b: a > b) if operation == "max" else (lambda a, b: a < b))
    first, second = value_of(kind, one), value_of(kind, other)
    return pattern_of(kind, first + second if operation == "sum" else first * second)
