"""The operations of a reduction (MPI 3.1, 5.9.2), element by element on Python's integers; floats are the patterns of their bits."""

import functools

import floats
from reading import TYPES

INTEGERS = set(TYPES) - {"byte"} - set(floats.FLOATS)
NUMBERS = INTEGERS | set(floats.FLOATS)

# The types on which each operation is defined.
DEFINED = {
    "max": NUMBERS,
    "min": NUMBERS,
    "sum": NUMBERS,
    "prod": NUMBERS,
    "land": INTEGERS,
    "lor": INTEGERS,
    "lxor": INTEGERS,
    "band": INTEGERS | {"byte"},
    "bor": INTEGERS | {"byte"},
    "bxor": INTEGERS | {"byte"},
    "affine": {"uint64"},
}


def wrapped(kind, value):
    """A value in two's complement of its type."""
    size, signed, _ = TYPES[kind]
    value %= 2 ** (8 * size)
    return value - 2 ** (8 * size) if signed and value >= 2 ** (8 * size - 1) else value


def maps_in_order(first, second):
    """The map `x -> a * x + b` that stands for two, the first and then the second; the high half of a number is `a`, the low half `b`."""
    one, other = divmod(first, 2**32), divmod(second, 2**32)
    return one[0] * other[0] % 2**32 * 2**32 + (other[0] * one[1] + other[1]) % 2**32


COMBINES = {
    "max": max,
    "min": min,
    "sum": lambda one, other: one + other,
    "prod": lambda one, other: one * other,
    "land": lambda one, other: int(one != 0 and other != 0),
    "lor": lambda one, other: int(one != 0 or other != 0),
    "lxor": lambda one, other: int((one != 0) != (other != 0)),
    "band": lambda one, other: one & other,
    "bor": lambda one, other: one | other,
    "bxor": lambda one, other: one ^ other,
    "affine": maps_in_order,
}


def is_associative(operation, kind):
    """Whether a fold of folds is the fold: sums and products of floats are rounded."""
    return kind not in floats.FLOATS or operation not in ("sum", "prod")


def combined(operation, kind, one, other):
    """What an operation makes of two elements, the lower rank's first."""
    if kind in floats.FLOATS:
        return floats.combined(operation, kind, one, other)
    return wrapped(kind, COMBINES[operation](one, other))


def fold(operation, kind, blocks):
    """What is made of the blocks of all members, in rank order and place by place, the lower ranks first."""
    return [functools.reduce(lambda one, other: combined(operation, kind, one, other), column) for column in zip(*blocks)]
