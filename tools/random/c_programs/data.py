"""Types that are drawn, with their maps, as C makes them; and rooms for items of them."""

import math

import type_maps as maps

INTEGERS = ("SIGNED_CHAR", "UNSIGNED_CHAR", "SHORT", "UNSIGNED_SHORT", "INT", "UNSIGNED", "LONG", "UNSIGNED_LONG", "LONG_LONG_INT",
            "UNSIGNED_LONG_LONG", "INT8_T", "INT16_T", "INT32_T", "INT64_T", "UINT8_T", "UINT16_T", "UINT32_T", "UINT64_T")
SIMPLE = (*INTEGERS, "CHAR", "FLOAT", "DOUBLE", "BYTE", "AINT", "WCHAR", "INT", "INT", "DOUBLE", "DOUBLE")
SELDOM = ("LONG_DOUBLE", "C_BOOL", "OFFSET", "COUNT", "C_FLOAT_COMPLEX", "C_DOUBLE_COMPLEX")
PAIRS = ("SHORT_INT", "FLOAT_INT", "DOUBLE_INT", "LONG_INT", "2INT")
CONSTRUCTORS = ("contiguous", "vector", "hvector", "indexed", "hindexed", "indexed_block", "hindexed_block", "struct", "resized",
                "subarray", "darray", "dup")
MOST_ELEMENTS = 60


class Type:
    """A type: the C expression, its map, and the basic type of which all its elements are, or None."""

    def __init__(self, expression, of, basic):
        self.expression, self.map, self.basic = expression, of, basic

    @property
    def length(self):
        return len(self.map.elements)

    @property
    def told(self):
        """What tell_status is told of it: the type, and whether elements of one length are of several basic types."""
        names = {name for name, _ in self.map.elements}
        has_pairs = self.basic in PAIRS or len(names) > 1 and len({maps.BASIC[it][0] for it in names}) == 1
        return "%s, %d" % (self.expression, has_pairs)

    @property
    def mark(self):
        """What lines of its data begin with."""
        return "~long_doubles " if self.basic in ("LONG_DOUBLE", "C_LONG_DOUBLE_COMPLEX", "LONG_DOUBLE_INT") else ""

    def reach(self, count):
        """The lowest and the highest place of the data of so many items, from the first item's place."""
        if count <= 0 or not self.map.elements:
            return 0, 0
        way = (count - 1) * self.map.extent()
        return self.map.true_lower() + min(0, way), self.map.true_upper() + max(0, way)


def are_apart(of, count):
    """Whether no two elements of so many items share a byte."""
    extent, true = of.extent(), of.true_upper() - of.true_lower()
    items = count if abs(extent) < true else 1
    if items * len(of.elements) > 4000:
        return False
    seen = set()
    for item in range(items):
        for name, at in of.elements:
            places = range(item * extent + at, item * extent + at + maps.BASIC[name][0])
            if not seen.isdisjoint(places):
                return False
            seen.update(places)
    return True


def c_list(kind, values):
    return "(%s[]){%s}" % (kind, ", ".join(map(str, values)) or "0")


class Drawer:
    """Draws types: what makes them stands in `lines`, and each has a place in an array of C."""

    def __init__(self, chance, array):
        self.chance, self.array, self.lines, self.made = chance, array, [], []

    def make(self, form, *values):
        """A line that makes a type; what it is called."""
        place = "%s[%d]" % (self.array, len(self.made))
        self.lines.append(form % (*values, "&" + place))
        self.made.append(place)
        return place

    def declaration(self):
        return "static MPI_Datatype %s[%d];" % (self.array, max(1, len(self.made)))

    def frees(self):
        return ["MPI_Type_free(&%s);" % it for it in self.made]

    def basic(self, name):
        return Type("MPI_" + name, maps.basic(name), name)

    def a_basic_name(self):
        return self.chance.choice(SIMPLE if self.chance.random() < .8 else SELDOM)

    def typed(self, name, depth, count):
        """A committed type of elements of this basic type, of which no places overlap in so many items."""
        for _ in range(20):
            lines, made = len(self.lines), len(self.made)
            found = self.basic(name)
            for _ in range(depth):
                found = self.over(found)
            is_fit = 0 < found.length <= MOST_ELEMENTS and found.map.true_upper() - found.map.true_lower() < 3000
            if is_fit and abs(found.map.extent()) < 3000 and are_apart(found.map, count):
                if found.expression in self.made:
                    self.lines.append("MPI_Type_commit(&%s);" % found.expression)
                return found
            del self.lines[lines:], self.made[made:]
        return self.basic(name)

    def struct(self, names):
        """A committed struct of these basic types, in this order, with gaps between them."""
        places, lengths, at = [], [], 0
        for name in names:
            size, alignment = sum(maps.BASIC[it][0] for it, _ in maps.basic(name).elements), 8
            at = -(-at // alignment) * alignment + self.chance.randrange(3) * 8
            length = 1 + len(name) % 3
            places.append(at)
            lengths.append(length)
            at += length * maps.basic(name).extent()
        of = maps.joined(maps.block(maps.basic(it), length, place) for it, length, place in zip(names, lengths, places))
        made = self.make("MPI_Type_create_struct(%d, %s, %s, %s, %s);", len(names), c_list("int", lengths), c_list("MPI_Aint", places),
                         c_list("MPI_Datatype", ["MPI_" + it for it in names]))
        self.lines.append("MPI_Type_commit(&%s);" % made)
        return Type(made, of, None)

    def over(self, old):
        kind = self.chance.choice(CONSTRUCTORS)
        of, made = getattr(self, "a_" + kind)(old.map, old.expression)
        return Type(made, of, old.basic)

    def numbers(self, count, least, most):
        return [self.chance.randint(least, most) for _ in range(count)]

    def a_dup(self, of, old):
        return of, self.make("MPI_Type_dup(%s, %s);", old)

    def a_contiguous(self, of, old):
        count = self.chance.randint(1, 4)
        return maps.block(of, count, 0), self.make("MPI_Type_contiguous(%d, %s, %s);", count, old)

    def a_vector(self, of, old):
        count, length, stride = self.chance.randint(1, 4), self.chance.randint(1, 3), self.chance.randint(1, 6)
        made = maps.hvector(of, count, length, stride * of.extent())
        return made, self.make("MPI_Type_vector(%d, %d, %d, %s, %s);", count, length, stride, old)

    def a_hvector(self, of, old):
        count, length, stride = self.chance.randint(1, 4), self.chance.randint(1, 3), 8 * self.chance.randint(-6, 20)
        made = maps.hvector(of, count, length, stride)
        return made, self.make("MPI_Type_create_hvector(%d, %d, %d, %s, %s);", count, length, stride, old)

    def a_indexed(self, of, old):
        count = self.chance.randint(1, 4)
        lengths, places = self.numbers(count, 0, 3), self.numbers(count, -3, 9)
        made = maps.blocks(of, lengths, [it * of.extent() for it in places])
        return made, self.make("MPI_Type_indexed(%d, %s, %s, %s, %s);", count, c_list("int", lengths), c_list("int", places), old)

    def a_hindexed(self, of, old):
        count = self.chance.randint(1, 4)
        lengths, places = self.numbers(count, 0, 3), [8 * it for it in self.numbers(count, -10, 30)]
        made = maps.blocks(of, lengths, places)
        return made, self.make("MPI_Type_create_hindexed(%d, %s, %s, %s, %s);", count, c_list("int", lengths),
                               c_list("MPI_Aint", places), old)

    def a_indexed_block(self, of, old):
        count, length = self.chance.randint(1, 4), self.chance.randint(1, 3)
        places = self.numbers(count, -3, 9)
        made = maps.blocks(of, count * [length], [it * of.extent() for it in places])
        return made, self.make("MPI_Type_create_indexed_block(%d, %d, %s, %s, %s);", count, length, c_list("int", places), old)

    def a_hindexed_block(self, of, old):
        count, length = self.chance.randint(1, 4), self.chance.randint(1, 3)
        places = [8 * it for it in self.numbers(count, -10, 30)]
        made = maps.blocks(of, count * [length], places)
        return made, self.make("MPI_Type_create_hindexed_block(%d, %d, %s, %s, %s);", count, length, c_list("MPI_Aint", places), old)

    def a_struct(self, of, old):
        count = self.chance.randint(1, 3)
        lengths, places = self.numbers(count, 0, 2), [8 * it for it in self.numbers(count, -6, 30)]
        made = maps.joined(maps.block(of, length, at) for length, at in zip(lengths, places))
        return made, self.make("MPI_Type_create_struct(%d, %s, %s, %s, %s);", count, c_list("int", lengths), c_list("MPI_Aint", places),
                               c_list("MPI_Datatype", count * [old]))

    def a_resized(self, of, old):
        lower = 8 * self.chance.randint(-4, 2)
        extent = of.true_upper() - lower + 8 * self.chance.randint(0, 4)
        extent = max(8, extent + -extent % 8)
        return maps.resized(of, lower, extent), self.make("MPI_Type_create_resized(%s, %d, %d, %s);", old, lower, extent)

    def a_subarray(self, of, old):
        ndims = self.chance.randint(1, 3)
        sizes = self.numbers(ndims, 1, 4)
        parts = [self.chance.randint(1, it) for it in sizes]
        starts = [self.chance.randint(0, size - part) for size, part in zip(sizes, parts)]
        order = self.chance.randrange(2)

        def is_within(entry):
            return all(start <= at < start + part for at, start, part in zip(entry, starts, parts))

        made = self.make("MPI_Type_create_subarray(%d, %s, %s, %s, %s, %s, %s);", ndims, c_list("int", sizes), c_list("int", parts),
                         c_list("int", starts), ("MPI_ORDER_C", "MPI_ORDER_FORTRAN")[order], old)
        return maps.of_array(of, sizes, order, is_within), made

    def a_darray(self, of, old):
        ndims = self.chance.randint(1, 2)
        gsizes, psizes = self.numbers(ndims, 2, 5), self.numbers(ndims, 1, 2)
        kinds = [self.chance.randrange(3) for _ in range(ndims)]
        psizes = [1 if kind == 0 else it for kind, it in zip(kinds, psizes)]
        size, order = math.prod(psizes), self.chance.randrange(2)
        rank, grid = self.chance.randrange(size), []
        left = rank
        for psize in reversed(psizes):
            grid.insert(0, left % psize)
            left //= psize

        def is_within(entry):
            return all(maps.owner(at, gsize, kind, 0, psize) == place
                       for at, place, gsize, kind, psize in zip(entry, grid, gsizes, kinds, psizes))

        words = ("MPI_DISTRIBUTE_NONE", "MPI_DISTRIBUTE_BLOCK", "MPI_DISTRIBUTE_CYCLIC")
        made = self.make("MPI_Type_create_darray(%d, %d, %d, %s, %s, %s, %s, %s, %s, %s);", size, rank, ndims, c_list("int", gsizes),
                         c_list("int", [words[it] for it in kinds]), c_list("int", ndims * ["MPI_DISTRIBUTE_DFLT_DARG"]),
                         c_list("int", psizes), ("MPI_ORDER_C", "MPI_ORDER_FORTRAN")[order], old)
        return maps.of_array(of, gsizes, order, is_within), made


def pointer(room, reach):
    """The place of the first item, where its data stand in a room of just their length."""
    return room if reach[0] == 0 else "%s - (%d)" % (room, reach[0])


def span(reach):
    return reach[1] - reach[0]


def filled(type_of, length, seed):
    names = {"C_BOOL": "filled_truths", "LONG_DOUBLE": "filled_long_doubles", "C_LONG_DOUBLE_COMPLEX": "filled_long_doubles"}
    return "%s(%d, %s)" % (names.get(type_of.basic, "filled"), length, seed)
