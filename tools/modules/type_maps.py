"""Type maps by the definitions of MPI 3.1, 4.1: lists of every element, made by loops over copies. Nothing here knows how the library keeps
its types."""

import itertools

# Of a basic type: bytes, alignment, what it is carried as, and how a number is written in external32 (13.5.2): its bytes there, and whether
# it has a sign, is a truth value, or is copied. A pair is a list of two.
BASIC = {
    "CHAR": (1, 1, "i1", 1, "signed"), "SHORT": (2, 2, "i2", 2, "signed"), "INT": (4, 4, "i4", 4, "signed"),
    "LONG": (8, 8, "i8", 4, "signed"), "FLOAT": (4, 4, "f4", 4, "turned"), "DOUBLE": (8, 8, "f8", 8, "turned"),
    "LONG_DOUBLE": (16, 16, "byte", 16, "long double"), "C_BOOL": (1, 1, "u1", 1, "truth"), "UINT16_T": (2, 2, "u2", 2, "unsigned"),
    "C_DOUBLE_COMPLEX": (16, 8, "f8", 8, "turned"), "BYTE": (1, 1, "byte", 1, "turned"),
    "WCHAR": (4, 4, "i4", 2, "unsigned"), "UNSIGNED_LONG": (8, 8, "u8", 4, "unsigned"),
    "SIGNED_CHAR": (1, 1, "i1", 1, "signed"), "UNSIGNED_CHAR": (1, 1, "u1", 1, "unsigned"),
    "UNSIGNED_SHORT": (2, 2, "u2", 2, "unsigned"), "UNSIGNED": (4, 4, "u4", 4, "unsigned"),
    "LONG_LONG_INT": (8, 8, "i8", 8, "signed"), "UNSIGNED_LONG_LONG": (8, 8, "u8", 8, "unsigned"),
    "INT8_T": (1, 1, "i1", 1, "signed"), "INT16_T": (2, 2, "i2", 2, "signed"), "INT32_T": (4, 4, "i4", 4, "signed"),
    "INT64_T": (8, 8, "i8", 8, "signed"), "UINT8_T": (1, 1, "u1", 1, "unsigned"), "UINT32_T": (4, 4, "u4", 4, "unsigned"),
    "UINT64_T": (8, 8, "u8", 8, "unsigned"), "AINT": (8, 8, "i8", 8, "signed"), "COUNT": (8, 8, "i8", 8, "signed"),
    "OFFSET": (8, 8, "i8", 8, "signed"), "C_FLOAT_COMPLEX": (8, 4, "f4", 8, "turned"),
    "C_LONG_DOUBLE_COMPLEX": (32, 16, "byte", 32, "long double"),
}
PAIRS = {"SHORT_INT": (("SHORT", 0), ("INT", 4)), "DOUBLE_INT": (("DOUBLE", 0), ("INT", 8)),
         "FLOAT_INT": (("FLOAT", 0), ("INT", 4)), "LONG_INT": (("LONG", 0), ("INT", 8)), "2INT": (("INT", 0), ("INT", 4)),
         "LONG_DOUBLE_INT": (("LONG_DOUBLE", 0), ("INT", 16))}
# As answers.c numbers them, from 1000 on.
NAMES = ["CHAR", "SHORT", "INT", "LONG", "FLOAT", "DOUBLE", "LONG_DOUBLE", "C_BOOL", "UINT16_T", "C_DOUBLE_COMPLEX", "BYTE", "SHORT_INT",
         "DOUBLE_INT", "WCHAR", "UNSIGNED_LONG"]


class Map:
    """Elements with their displacements, in order; markers of the lower and of the upper bound."""

    def __init__(self, elements, lowers=(), uppers=()):
        self.elements, self.lowers, self.uppers = list(elements), list(lowers), list(uppers)

    def size(self):
        return sum(BASIC[name][0] for name, _ in self.elements)

    def true_lower(self):
        return min((at for _, at in self.elements), default=0)

    def true_upper(self):
        return max((at + BASIC[name][0] for name, at in self.elements), default=0)

    def lower(self):
        return min(self.lowers) if self.lowers else self.true_lower()

    def upper(self):
        """The bound that no marker tells is rounded up, so that the extent is a multiple of the greatest alignment (4.1.6)."""
        if self.uppers:
            return max(self.uppers)
        alignment = max((BASIC[name][1] for name, _ in self.elements), default=1)
        return next(it for it in itertools.count(self.true_upper()) if (it - self.lower()) % alignment == 0)

    def extent(self):
        return self.upper() - self.lower()

    def copies(self, places):
        """A copy at each of these places, in their order."""
        return joined(Map([(name, at + place) for name, at in self.elements], [it + place for it in self.lowers],
                          [it + place for it in self.uppers]) for place in places)


def joined(maps):
    made = Map([])
    for it in maps:
        made.elements += it.elements
        made.lowers += it.lowers
        made.uppers += it.uppers
    return made


def basic(name):
    return Map(PAIRS.get(name, [(name, 0)]))


def block(of, length, at):
    return of.copies(at + i * of.extent() for i in range(length))


def hvector(of, count, length, stride):
    return joined(block(of, length, i * stride) for i in range(count))


def blocks(of, lengths, places):
    return joined(block(of, length, at) for length, at in zip(lengths, places))


def resized(of, lower, extent):
    return Map(of.elements, [lower], [lower + extent])


def of_array(of, sizes, order, is_within):
    """The entries of an array that are within a part of it, in the array's order; its bounds are those of all entries (4.1.3, 4.1.4)."""
    ranges = [range(size) for size in sizes]
    if order == 0:
        entries = itertools.product(*ranges)
    else:
        entries = (tuple(reversed(it)) for it in itertools.product(*reversed(ranges)))
    places = [place for place, entry in enumerate(entries) if is_within(entry)]
    extent, whole = of.extent(), 1
    for size in sizes:
        whole *= size
    return resized(of.copies(place * extent for place in places), 0, whole * extent)


def owner(entry, gsize, distribution, argument, psize):
    """Whose an entry of a dimension is: 0 isn't distributed, 1 is by blocks, 2 cyclic; the argument 0 is the default (4.1.4)."""
    if distribution == 0:
        return 0
    return entry // (argument or (-(-gsize // psize) if distribution == 1 else 1)) % psize


def written(name, data):
    """The bytes of an element in external32."""
    size, _, _, external, form = BASIC[name]
    if form == "truth":
        return b"\1" if any(data) else b"\0"
    if name == "C_DOUBLE_COMPLEX":
        return data[7::-1] + data[:7:-1]
    return data[:external][::-1]


def read(name, data):
    """The bytes that an element has in memory which is written so in external32."""
    size, _, _, external, form = BASIC[name]
    if form == "truth":
        return b"\1" if any(data) else b"\0"
    if name == "C_DOUBLE_COMPLEX":
        return data[7::-1] + data[:7:-1]
    if form == "turned":
        return data[::-1]
    return int.from_bytes(data, "big", signed=form == "signed").to_bytes(size, "little", signed=form == "signed")
