"""Collectives of MPI 3.1's chapter 5 with random types, counts, roots and operations, one or several at once; blocking ones and those that
don't wait."""

import math

import blocks
import data
from traffic import WAYS

MOVES = ("bcast", "gather", "gatherv", "scatter", "scatterv", "allgather", "allgatherv", "alltoall", "alltoallv", "alltoallw")
FOLDS = ("reduce", "allreduce", "reduce_scatter", "reduce_scatter_block", "scan", "exscan")
FLOATS, COMPLEX = ("FLOAT", "DOUBLE", "LONG_DOUBLE"), ("C_FLOAT_COMPLEX", "C_DOUBLE_COMPLEX", "C_LONG_DOUBLE_COMPLEX")
ADDRESSES = ("AINT", "OFFSET", "COUNT")
C_TYPES = {"SIGNED_CHAR": "signed char", "UNSIGNED_CHAR": "unsigned char", "SHORT": "short", "UNSIGNED_SHORT": "unsigned short", "INT": "int",
           "UNSIGNED": "unsigned", "LONG": "long", "UNSIGNED_LONG": "unsigned long", "LONG_LONG_INT": "long long",
           "UNSIGNED_LONG_LONG": "unsigned long long", "INT8_T": "int8_t", "INT16_T": "int16_t", "INT32_T": "int32_t", "INT64_T": "int64_t",
           "UINT8_T": "uint8_t", "UINT16_T": "uint16_t", "UINT32_T": "uint32_t", "UINT64_T": "uint64_t", "FLOAT": "float",
           "DOUBLE": "double", "LONG_DOUBLE": "long double", "C_FLOAT_COMPLEX": "float", "C_DOUBLE_COMPLEX": "double",
           "C_LONG_DOUBLE_COMPLEX": "long double", "AINT": "MPI_Aint", "OFFSET": "MPI_Offset", "COUNT": "MPI_Count", "C_BOOL": "_Bool",
           "BYTE": "unsigned char"}
# The numbers of a pair (5.9.4): the first, and the index at its place.
PAIRS = {"SHORT_INT": ("short", 4, 8), "FLOAT_INT": ("float", 4, 8), "DOUBLE_INT": ("double", 8, 16), "LONG_INT": ("long", 8, 16),
         "2INT": ("int", 4, 8), "LONG_DOUBLE_INT": ("long double", 16, 32)}
OPERATIONS = {"max": (*data.INTEGERS, *FLOATS, *ADDRESSES), "min": (*data.INTEGERS, *FLOATS, *ADDRESSES),
              "sum": (*data.INTEGERS, *FLOATS, *COMPLEX, *ADDRESSES), "prod": (*data.INTEGERS, *FLOATS, *COMPLEX, *ADDRESSES),
              "land": (*data.INTEGERS, "C_BOOL"), "lor": (*data.INTEGERS, "C_BOOL"), "lxor": (*data.INTEGERS, "C_BOOL"),
              "band": (*data.INTEGERS, "BYTE", *ADDRESSES), "bor": (*data.INTEGERS, "BYTE", *ADDRESSES),
              "bxor": (*data.INTEGERS, "BYTE", *ADDRESSES), "minloc": tuple(PAIRS), "maxloc": tuple(PAIRS)}
OWN = ("add_words", "compose_pairs", "compose_wide")


class Part:
    """One collective: names of its own, what begins it and what tells of it."""

    def __init__(self, draft, block, place, comm, types):
        self.chance, self.comm, self.types, self.size = draft.chance, comm, types, draft.size
        self.place, self.seed = place, 1000 * block + 17 * place
        self.waits, self.in_place, self.root = draft.chance.random() < .5, draft.chance.random() < .25, draft.chance.randrange(8)

    def own(self, word):
        return "%s%d" % (word, self.place)

    def call(self, name, words):
        if self.waits:
            return ["MPI_%s(%s, c%d);" % (name, words, self.place)]
        return ["MPI_I%s(%s, c%d, &q[%d]);" % (name.lower(), words, self.place, self.place)]

    def drawn_room(self, name, type_of, items, seed):
        """A filled room for so many items: its lines, and the place of the first."""
        reach = type_of.reach(items)
        room = self.own(name)
        text = "room(%d)" % data.span(reach) if seed is None else data.filled(type_of, data.span(reach), seed)
        return ["%s = %s;" % (room, text)], data.pointer(room, reach)


class Move(Part):
    """A collective that moves data."""

    def __init__(self, draft, block, place, comm, types, kind):
        super().__init__(draft, block, place, comm, types)
        self.kind, chance = kind, draft.chance
        if kind == "barrier":
            return
        name = types.a_basic_name() if chance.random() < .95 else chance.choice(data.PAIRS)
        self.most = chance.choice((0, 1, 1, 2, 5, 20, 60, 300 if kind == "bcast" else 60))
        many = 4 * self.size * (self.most + 2)
        self.sent, self.taken = (types.typed(name, chance.choice((0, 0, 1)), many) for _ in range(2))
        unit = math.lcm(self.sent.length, self.taken.length)
        if unit > 60:
            self.sent, unit = self.taken, self.taken.length
        self.sent_unit, self.taken_unit = unit // self.sent.length, unit // self.taken.length
        self.plain, self.unit = types.basic(name), unit // types.basic(name).length
        self.is_turned, self.gap = chance.random() < .5, chance.randint(0, 2)

    def lists(self, counts, places, unit, lengths, step):
        """Lines that set counts and displacements of blocks."""
        at = "(n%d - 1 - i)" % self.place if self.is_turned else "i"
        return ["%s = numbers(n%d), %s = numbers(n%d);" % (counts, self.place, places, self.place),
                "for (int i = 0; i < n%d; i++) %s[i] = %d * %s, %s[i] = %s * %d;" % (self.place, counts, unit, lengths, places, at, step)]

    def lines(self):
        return ["MPI_Barrier(c%d);" % self.place] if self.kind == "barrier" and self.waits else \
            ["MPI_Ibarrier(c%d, &q[%d]);" % (self.place, self.place)] if self.kind == "barrier" else getattr(self, "a_" + self.kind)()

    def tells(self):
        if self.kind == "barrier":
            return []
        return ['if (out%d) tell_room("%s%s %d", out%d);' % (self.place, self.taken.mark, self.kind, self.place, self.place)]

    def words(self):
        return "me%d" % self.place, "n%d" % self.place, "%d %% n%d" % (self.root, self.place), "(unsigned)(%d + 64 * me%d)" % (self.seed, self.place)

    def a_bcast(self):
        me, size, root, seed = self.words()
        lines, out = self.drawn_room("out", self.taken, self.most * self.taken_unit, None)
        sent, given = self.drawn_room("in", self.sent, self.most * self.sent_unit, seed)
        root_call = self.call("Bcast", "%s, %d, %s, %s" % (given, self.most * self.sent_unit, self.sent.expression, root))
        other_call = self.call("Bcast", "%s, %d, %s, %s" % (out, self.most * self.taken_unit, self.taken.expression, root))
        return [*lines, *sent, "if (%s == %s) {" % (me, root), *blocks.indented(root_call), "} else {", *blocks.indented(other_call), "}"]

    def a_gather(self, has_lists=False):
        me, size, root, seed = self.words()
        step = (self.most + self.gap) * self.taken_unit if has_lists else self.most * self.taken_unit
        lines, out = self.drawn_room("out", self.taken, self.size * step, None)
        own = "length_of(%d, %s, %d)" % (self.seed, me, self.most) if has_lists else self.most
        sent, given = self.drawn_room("in", self.sent, self.most * self.sent_unit, seed)
        if has_lists:
            lines += self.lists(self.own("counts"), self.own("places"), self.taken_unit, "length_of(%d, i, %d)" % (self.seed, self.most), step)
            counts = "%s, %s" % (self.own("counts"), self.own("places"))
        else:
            counts = "%d" % step
        words = "%s, %d * %s, %s, %s, %s, %s, %s" % (given, self.sent_unit, own, self.sent.expression, out, counts, self.taken.expression, root)
        call = self.call("Gatherv" if has_lists else "Gather", words)
        if not self.in_place:
            return [*lines, *sent, *call]
        words = "MPI_IN_PLACE, 0, MPI_DATATYPE_NULL, %s, %s, %s, %s" % (out, counts, self.taken.expression, root)
        at_root = self.call("Gatherv" if has_lists else "Gather", words)
        return [*lines, *sent, "if (%s == %s) {" % (me, root), *blocks.indented(at_root), "} else {", *blocks.indented(call), "}"]

    def a_gatherv(self):
        return self.a_gather(True)

    def a_scatter(self, has_lists=False):
        me, size, root, seed = self.words()
        step = (self.most + self.gap) * self.sent_unit if has_lists else self.most * self.sent_unit
        lines, given = self.drawn_room("in", self.sent, self.size * step, seed)
        own = "length_of(%d, %s, %d)" % (self.seed, me, self.most) if has_lists else self.most
        taken, out = self.drawn_room("out", self.taken, self.most * self.taken_unit, None)
        if has_lists:
            lines += self.lists(self.own("counts"), self.own("places"), self.sent_unit, "length_of(%d, i, %d)" % (self.seed, self.most), step)
            counts = "%s, %s" % (self.own("counts"), self.own("places"))
        else:
            counts = "%d" % step
        head = "%s, %s, %s" % (given, counts, self.sent.expression)
        name = "Scatterv" if has_lists else "Scatter"
        call = self.call(name, "%s, %s, %d * %s, %s, %s" % (head, out, self.taken_unit, own, self.taken.expression, root))
        if not self.in_place:
            return [*lines, *taken, *call]
        at_root = self.call(name, "%s, MPI_IN_PLACE, 0, MPI_DATATYPE_NULL, %s" % (head, root))
        return [*lines, *taken, "if (%s == %s) {" % (me, root), *blocks.indented(at_root), "} else {", *blocks.indented(call), "}"]

    def a_scatterv(self):
        return self.a_scatter(True)

    def a_allgather(self, has_lists=False):
        me, size, root, seed = self.words()
        step = (self.most + self.gap) * self.taken_unit if has_lists else self.most * self.taken_unit
        lines, out = self.drawn_room("out", self.taken, self.size * step, seed if self.in_place else None)
        own = "length_of(%d, %s, %d)" % (self.seed, me, self.most) if has_lists else self.most
        sent, given = self.drawn_room("in", self.sent, self.most * self.sent_unit, seed)
        if has_lists:
            lines += self.lists(self.own("counts"), self.own("places"), self.taken_unit, "length_of(%d, i, %d)" % (self.seed, self.most), step)
        tail = "%s, %s, %s" % (out, "%s, %s" % (self.own("counts"), self.own("places")) if has_lists else step, self.taken.expression)
        head = "MPI_IN_PLACE, 0, MPI_DATATYPE_NULL" if self.in_place else "%s, %d * %s, %s" % (given, self.sent_unit, own, self.sent.expression)
        return [*lines, *sent, *self.call("Allgatherv" if has_lists else "Allgather", "%s, %s" % (head, tail))]

    def a_allgatherv(self):
        return self.a_allgather(True)

    def a_alltoall(self):
        me, size, root, seed = self.words()
        lines, out = self.drawn_room("out", self.taken, self.size * self.most * self.taken_unit, seed if self.in_place else None)
        sent, given = self.drawn_room("in", self.sent, self.size * self.most * self.sent_unit, seed)
        head = "MPI_IN_PLACE, 0, MPI_DATATYPE_NULL" if self.in_place else "%s, %d, %s" % (given, self.most * self.sent_unit, self.sent.expression)
        return [*lines, *sent, *self.call("Alltoall", "%s, %s, %d, %s" % (head, out, self.most * self.taken_unit, self.taken.expression))]

    def lengths_between(self, is_sent):
        """How long the block is from one member to another one; in place it is as long in both directions (5.8)."""
        me = "me%d" % self.place
        if self.in_place:
            return "length_of(%d, %s < i ? 64 * %s + i : 64 * i + %s, %d)" % (self.seed, me, me, me, self.most)
        return "length_of(%d, %s, %d)" % (self.seed, "64 * %s + i" % me if is_sent else "64 * i + %s" % me, self.most)

    def a_alltoallv(self):
        me, size, root, seed = self.words()
        taken_step, sent_step = ((self.most + self.gap) * it for it in (self.taken_unit, self.sent_unit))
        lines, out = self.drawn_room("out", self.taken, self.size * taken_step, seed if self.in_place else None)
        sent, given = self.drawn_room("in", self.sent, self.size * sent_step, seed)
        lines += self.lists(self.own("counts"), self.own("places"), self.taken_unit, self.lengths_between(False), taken_step)
        lines += self.lists(self.own("sent_counts"), self.own("sent_places"), self.sent_unit, self.lengths_between(True), sent_step)
        head = "MPI_IN_PLACE, NULL, NULL, MPI_DATATYPE_NULL" if self.in_place else "%s, %s, %s, %s" % (
            given, self.own("sent_counts"), self.own("sent_places"), self.sent.expression)
        tail = "%s, %s, %s, %s" % (out, self.own("counts"), self.own("places"), self.taken.expression)
        return [*lines, *sent, *self.call("Alltoallv", "%s, %s" % (head, tail))]

    def lists_of_types(self, side, type_of, unit, lengths):
        """Counts, displacements in bytes and types: every second block has the basic type."""
        reaches = type_of.reach(self.most * unit), self.plain.reach(self.most * self.unit)
        step = -(-max(map(data.span, reaches)) // 16) * 16 + 16 * self.gap
        counts, places, types = (self.own(side + word) for word in ("counts", "places", "types"))
        lines = ["%s = numbers(n%d), %s = numbers(n%d);" % (counts, self.place, places, self.place),
                 "%s = (MPI_Datatype *)room(sizeof(MPI_Datatype) * (size_t)n%d);" % (types, self.place),
                 "for (int i = 0; i < n%d; i++) {" % self.place,
                 "    %s[i] = (i %% 2 ? %d : %d) * %s;" % (counts, self.unit, unit, lengths),
                 "    %s[i] = i * %d - (i %% 2 ? %d : %d);" % (places, step, reaches[1][0], reaches[0][0]),
                 "    %s[i] = i %% 2 ? %s : %s;" % (types, self.plain.expression, type_of.expression), "}"]
        return lines, step

    def a_alltoallw(self):
        me, size, root, seed = self.words()
        lists, step = self.lists_of_types("", self.taken, self.taken_unit, self.lengths_between(False))
        out = data.filled(self.taken, self.size * step, seed) if self.in_place else "room(%d)" % (self.size * step)
        lines = ["%s = %s;" % (self.own("out"), out), *lists]
        tail = "%s, %s, %s, %s" % tuple(map(self.own, ("out", "counts", "places", "types")))
        if self.in_place:
            # Blocks of one type in both directions.
            lines += ["for (int i = 0; i < n%d; i++) {" % self.place,
                      "    %s[i] = %d * %s;" % (self.own("counts"), self.taken_unit, self.lengths_between(False)),
                      "    %s[i] = i * %d - (%d);" % (self.own("places"), step, self.taken.reach(self.most * self.taken_unit)[0]),
                      "    %s[i] = %s;" % (self.own("types"), self.taken.expression), "}"]
            return [*lines, *self.call("Alltoallw", "MPI_IN_PLACE, NULL, NULL, NULL, %s" % tail)]
        lists, step = self.lists_of_types("sent_", self.sent, self.sent_unit, self.lengths_between(True))
        lines += ["%s = %s;" % (self.own("in"), data.filled(self.sent, self.size * step, seed)), *lists]
        head = "%s, %s, %s, %s" % tuple(map(self.own, ("in", "sent_counts", "sent_places", "sent_types")))
        return [*lines, *self.call("Alltoallw", "%s, %s" % (head, tail))]


class Fold(Part):
    """A reduction."""

    def __init__(self, draft, block, place, comm, types, kind):
        super().__init__(draft, block, place, comm, types)
        self.kind, chance = kind, draft.chance
        self.operation = chance.choice((*OPERATIONS, *OWN, *OWN))
        self.most = chance.choice((0, 1, 1, 2, 5, 20, 100, 400, 2000))
        if self.operation in OWN:
            self.type = None
            self.commutes = self.operation == "add_words"
            if self.operation == "compose_pairs":
                self.type = types.make("MPI_Type_contiguous(2, MPI_UINT32_T, %s);")
            elif self.operation == "compose_wide":
                inner = types.make("MPI_Type_indexed(2, (int[]){1, 1}, (int[]){0, 3}, MPI_UINT32_T, %s);")
                self.type = types.make("MPI_Type_create_resized(%s, 0, 16, %s);", inner)
            if self.type:
                types.lines.append("MPI_Type_commit(&%s);" % self.type)
            self.expression, self.item = self.type or "MPI_UINT32_T", {"add_words": 4, "compose_pairs": 8, "compose_wide": 16}[self.operation]
        else:
            self.basic = chance.choice(OPERATIONS[self.operation])
            self.expression = "MPI_" + self.basic

    @property
    def fault(self):
        """The fault of another MPI that touches what comes of it."""
        if self.operation not in ("max", "min"):
            return None
        if self.basic.startswith("U"):
            return "unsigned_long_order" if self.basic == "UNSIGNED_LONG" else "unsigned_order"
        return "offset_order" if self.basic == "OFFSET" else None

    def space(self, items):
        """Lines that fill a room with so many items; the room's length."""
        if self.operation in OWN:
            return self.item * items
        if self.basic in PAIRS:
            return PAIRS[self.basic][2] * items
        return data.maps.BASIC[self.basic][0] * items

    def filling(self, room, items):
        rank, seed = "me%d" % self.place, self.seed
        if self.operation in OWN:
            return ["%s = filled(%d, (unsigned)(%d + 64 * %s));" % (room, self.space(items), seed, rank)]
        lines = ["%s = room(%d);" % (room, self.space(items))]
        value = 'small_number("%s", %d, %s, i)' % (self.operation, seed, rank)
        if self.basic in PAIRS:
            kind, at, extent = PAIRS[self.basic]
            return lines + ["for (int i = 0; i < %d; i++) {" % items,
                            "    *(%s *)(%s + %d * i) = (%s)(small_number(\"loc\", %d, %s, i) %% 7 - 3);" % (kind, room, extent, kind, seed, rank),
                            "    *(int *)(%s + %d * i + %d) = (%s * 5 + i) %% 4;" % (room, extent, at, rank), "}"]
        kind, many = C_TYPES[self.basic], items * (2 if self.basic in COMPLEX else 1)
        if self.operation in ("band", "bor", "bxor"):
            value = "mixed(%d, (unsigned)%s, (unsigned)i)" % (seed, rank)
        elif self.basic in COMPLEX and self.operation == "prod":
            value = "(small_number(\"sum\", %d, %s, i) %% 3 - 1)" % (seed, rank)
        elif self.operation in ("max", "min", "sum") and not self.basic.startswith("U") and self.basic != "BYTE":
            value = "(%s - %d)" % (value, 5 if self.operation == "sum" else 40)
        elif self.operation in ("max", "min"):
            value = "((%s)-1 / 100 * (%s)%s)" % (kind, kind, value)
        return lines + ["for (int i = 0; i < %d; i++) ((%s *)%s)[i] = (%s)%s;" % (many, kind, room, kind, value)]

    def telling(self, room, items):
        mark = "~%s " % self.fault if self.fault else ""
        what = '"%s%s %d %s %s"' % (mark, self.kind, self.place, self.operation, getattr(self, "basic", self.expression))
        if self.operation in OWN:
            return ["observe(%s \" %%08x\", (unsigned)room_sum(%s));" % (what, room)]
        if self.basic in PAIRS:
            kind, at, extent = PAIRS[self.basic]
            part = {"short": 2, "long double": 10}.get(kind, at)
            return ["tell_numbers(%s, %s, %s, %d, %d, %d);" % (what, room, items, extent, part, at)]
        size = data.maps.BASIC[self.basic][0]
        tidied = ["for (int i = 0; i < %s * %d; i++) ((%s *)%s)[i] += 0;" % (items, 2 if self.basic in COMPLEX else 1, C_TYPES[self.basic], room)]
        tidied = tidied if self.basic in COMPLEX + FLOATS else []   # -0 is 0
        if "LONG_DOUBLE" in self.basic:
            return tidied + ["tell_numbers(%s, %s, %s, %d, 10, %d);" % (what, room, items, size, 16 if size == 32 else 0)]
        return tidied + ["tell_numbers(%s, %s, %s, %d, %d, 0);" % (what, room, items, size, size)]

    def op(self):
        return "op%d" % self.place if self.operation in OWN else "MPI_" + self.operation.upper()

    def lines(self):
        me, size, root = "me%d" % self.place, "n%d" % self.place, "%d %% n%d" % (self.root, self.place)
        given, out, many = self.own("in"), self.own("out"), self.most
        lines = ["MPI_Op_create(%s, %d, &op%d);" % (self.operation, self.commutes, self.place)] if self.operation in OWN else []
        blocks_of = self.size if self.kind in ("reduce_scatter", "reduce_scatter_block") else 1
        lines += self.filling(given, blocks_of * many) + ["%s = room(%d);" % (out, self.space(blocks_of * many))]
        count, name = str(many), self.kind.capitalize()
        if self.kind == "reduce_scatter":
            lines += ["counts%d = numbers(n%d);" % (self.place, self.place),
                      "for (int i = 0; i < %s; i++) counts%d[i] = length_of(%d, i, %d);" % (size, self.place, self.seed, many)]
            count = "counts%d" % self.place
        if self.in_place and (self.kind != "reduce"):
            lines += ["memcpy(%s, %s, %d);" % (out, given, self.space(blocks_of * many))]
        head = "MPI_IN_PLACE" if self.in_place else given
        tail = "%s, %s, %s, %s" % (out, count, self.expression, self.op())
        if self.kind != "reduce":
            return lines + self.call(name, "%s, %s" % (head, tail))
        call = self.call(name, "%s, %s, %s" % (given, tail, root))
        if not self.in_place:
            return lines + call
        at_root = ["memcpy(%s, %s, %d);" % (out, given, self.space(many)), *self.call(name, "MPI_IN_PLACE, %s, %s" % (tail, root))]
        return lines + ["if (%s == %s) {" % (me, root), *blocks.indented(at_root), "} else {", *blocks.indented(call), "}"]

    def tells(self):
        me, out, many = "me%d" % self.place, self.own("out"), str(self.most)
        if self.kind == "reduce":
            return ["if (%s == %d %% n%d) {" % (me, self.root, self.place), *blocks.indented(self.telling(out, many)), "}", *self.frees()]
        if self.kind == "exscan":
            return ["if (%s > 0) {" % me, *blocks.indented(self.telling(out, many)), "}", *self.frees()]
        if self.kind == "reduce_scatter":
            many = "counts%d[%s]" % (self.place, me)
            if self.operation in OWN and self.in_place:
                # What stands behind the own block in place isn't told (5.10.2).
                return ["observe(\"reduce_scatter %d own %%08x\", (unsigned)sum_of(%s, (size_t)(%d * %s)));" % (
                    self.place, out, self.item, many), *self.frees()]
        elif self.kind == "reduce_scatter_block" and self.operation in OWN and self.in_place:
            return ["observe(\"reduce_scatter_block %d own %%08x\", (unsigned)sum_of(%s, %d));" % (
                self.place, out, self.item * self.most), *self.frees()]
        return self.telling(out, many) + self.frees()

    def frees(self):
        return ["MPI_Op_free(&op%d);" % self.place] if self.operation in OWN else []


class Collectives(blocks.Block):
    """Some collectives that all members begin in one order, and their end; messages may go on meanwhile."""

    name = "collectives"

    def __init__(self, draft, comms):
        super().__init__(draft, comms, ())
        chance = draft.chance
        self.way = chance.choice(WAYS)
        self.types = data.Drawer(chance, "t%d" % self.number)
        for place, comm in enumerate(comms):
            kind = chance.choice((*MOVES, *FOLDS, *FOLDS, "barrier"))
            made = Fold if kind in FOLDS else Move
            self.parts.append(made(draft, self.number, place, comm, self.types, kind))

    def statics(self):
        return [self.types.declaration()]

    def lines(self):
        many = max((it.place for it in self.parts), default=0) + 1
        lines = ["MPI_Request q[%d];" % many, "MPI_Status s[%d];" % many, "for (int i = 0; i < %d; i++) q[i] = MPI_REQUEST_NULL;" % many,
                 *self.types.lines]
        for it in self.parts:
            p = it.place
            lines += ["MPI_Comm c%d = %s;" % (p, it.comm.expression), "int me%d, n%d;" % (p, p),
                      "int has%d = enter(c%d, &me%d, &n%d), *counts%d, *places%d, *sent_counts%d, *sent_places%d;" % ((p,) * 8),
                      "MPI_Datatype *types%d, *sent_types%d;" % (p, p), "MPI_Op op%d;" % p, "unsigned char *in%d = NULL, *out%d = NULL;" % (p, p),
                      "if (has%d) {" % p, *blocks.indented(it.lines()), "}"]
        lines.append("end_all(%s, %d, q, s);" % (self.way, many))
        for it in self.parts:
            lines += ["if (has%d) {" % it.place, *blocks.indented(it.tells()), "}"]
        return lines + self.types.frees()
