"""What calls answer of random types: sizes, bounds, how they were made; what is packed and unpacked of them."""

import blocks
import data


class TypeAnswers(blocks.Block):
    """A type of some levels."""

    name = "type"

    def __init__(self, draft):
        super().__init__(draft)
        chance = draft.chance
        self.types = data.Drawer(chance, "t%d" % self.number)
        if chance.random() < .7:
            self.of = self.types.typed(self.types.a_basic_name(), chance.choice((1, 2, 2, 3)), 3)
        else:
            self.of = self.types.struct([chance.choice(("INT", "DOUBLE", "SHORT", "CHAR", "FLOAT", "LONG", "UINT16_T")) for _ in range(3)])
        self.many, self.is_in_parts = chance.randint(0, 3), chance.random() < .5

    def statics(self):
        return [self.types.declaration()]

    def lines(self):
        of, many = self.of.expression, self.many
        reach = self.of.reach(many)
        room, given = data.pointer("out", reach), data.pointer("given", reach)
        lines = [*self.types.lines, "int size, bytes, at = 0, many, integers, addresses, types, combiner, length;",
                 "MPI_Aint lower, extent, place = 0, external;", "MPI_Count long_size, long_lower, long_extent;",
                 "MPI_Type_size(%s, &size);" % of, "MPI_Type_get_extent(%s, &lower, &extent);" % of, "MPI_Type_size_x(%s, &long_size);" % of,
                 'observe("size %d %lld", size, (long long)long_size);', 'observe("lower %ld extent %ld", (long)lower, (long)extent);',
                 "MPI_Type_get_true_extent(%s, &lower, &extent);" % of, 'observe("true lower %ld extent %ld", (long)lower, (long)extent);',
                 "MPI_Type_get_extent_x(%s, &long_lower, &long_extent);" % of, 'observe("%lld %lld", (long long)long_lower, (long long)long_extent);',
                 "MPI_Type_get_true_extent_x(%s, &long_lower, &long_extent);" % of,
                 'observe("%lld %lld", (long long)long_lower, (long long)long_extent);', *self.envelope(of),
                 "MPI_Pack_size(%d, %s, MPI_COMM_WORLD, &bytes);" % (many, of), 'observe("room %%d", bytes >= %d * size);' % many,
                 "unsigned char *given = %s, *out = room(%d), *packed = room((size_t)bytes + 8);" % (
                     data.filled(self.of, data.span(reach), 1000 * self.number), data.span(reach)),
                 "MPI_Pack(%s, %d, %s, packed, bytes + 8, &at, MPI_COMM_WORLD);" % (given, many, of), "length = at, at = 0;"]
        if self.is_in_parts and many > 1:
            lines += ["for (int i = 0; i < %d; i++) {" % many,
                      "    MPI_Unpack(packed, length, &at, %s + i * %d, 1, %s, MPI_COMM_WORLD);" % (room, self.of.map.extent(), of), "}"]
        else:
            lines.append("MPI_Unpack(packed, length, &at, %s, %d, %s, MPI_COMM_WORLD);" % (room, many, of))
        lines += ['observe("all %d", at == length);', 'tell_room("%sunpacked", out);' % self.of.mark]
        return lines + self.external(of, many, given, room) + self.types.frees()

    def envelope(self, of):
        words = ("NAMED", "DUP", "CONTIGUOUS", "VECTOR", "HVECTOR", "INDEXED", "HINDEXED", "INDEXED_BLOCK", "HINDEXED_BLOCK", "STRUCT", "SUBARRAY",
                 "DARRAY", "RESIZED")
        chain = " : ".join('combiner == MPI_COMBINER_%s ? "%s"' % (it, it.lower()) for it in words)
        inside = ["MPI_Datatype *of = malloc(sizeof *of * (size_t)(types + 1));", "int *list = malloc(sizeof *list * (size_t)(integers + 1));",
                  "MPI_Aint *far = malloc(sizeof *far * (size_t)(addresses + 1));",
                  "MPI_Type_get_contents(%s, integers, addresses, types, list, far, of);" % of,
                  "for (int i = 0; i < integers && combiner != MPI_COMBINER_DARRAY && combiner != MPI_COMBINER_SUBARRAY; i++) "
                  'observe("integer %d", list[i]);',
                  'for (int i = 0; i < addresses; i++) observe("address %ld", (long)far[i]);',
                  "for (int i = 0; i < types; i++) {", "    int a, b, c, kind;", "    MPI_Type_get_envelope(of[i], &a, &b, &c, &kind);",
                  '    observe("of %d", kind == MPI_COMBINER_NAMED);', "    if (kind != MPI_COMBINER_NAMED) MPI_Type_free(&of[i]);", "}"]
        return ["MPI_Type_get_envelope(%s, &integers, &addresses, &types, &combiner);" % of,
                'observe("made by %%s of %%d %%d %%d", %s : "?", integers, addresses, types);' % chain,
                "if (combiner != MPI_COMBINER_NAMED) {", *blocks.indented(inside), "}"]

    def external(self, of, many, given, room):
        names = {name for name, _ in self.of.map.elements}
        if any("LONG" in it or it in ("C_BOOL", "WCHAR", "AINT", "COUNT", "OFFSET") for it in names):
            return []
        return ["#ifndef FAULT_external32", 'MPI_Pack_external_size("external32", %d, %s, &external);' % (many, of),
                'observe("~external32 external %ld", (long)external);',
                "unsigned char *written = room((size_t)external + 8), *back = room(%d);" % data.span(self.of.reach(many)),
                'MPI_Pack_external("external32", %s, %d, %s, written, external + 8, &place);' % (given, many, of),
                'tell_room("~external32 written", written);', "place = 0;",
                'MPI_Unpack_external("external32", written, external, &place, %s, %d, %s);' % (room.replace("out", "back", 1), many, of),
                'tell_room("~external32 read", back);', "#endif"]


class Packed(blocks.Block):
    """Data of several types that go packed in one message."""

    name = "packed"

    def __init__(self, draft, comm):
        super().__init__(draft, [comm])
        chance, self.comm = draft.chance, comm
        self.types = data.Drawer(chance, "t%d" % self.number)
        self.items = [(self.types.typed(self.types.a_basic_name(), chance.choice((0, 1)), 40), chance.randint(0, 30))
                      for _ in range(chance.randint(1, 3))]

    def statics(self):
        return [self.types.declaration()]

    def lines(self):
        lines = ["MPI_Comm comm = %s;" % self.comm.expression, "int me, size, bytes, all = 0, at = 0, length;", "MPI_Status status;",
                 "if (!enter(comm, &me, &size)) return;", *self.types.lines]
        for of, many in self.items:
            lines += ["MPI_Pack_size(%d, %s, comm, &bytes);" % (many, of.expression), "all += bytes;"]
        lines += ["unsigned char *packed = room((size_t)all), *came = room((size_t)all);"]
        for place, (of, many) in enumerate(self.items):
            reach = of.reach(many)
            given = data.filled(of, data.span(reach), "(unsigned)(%d + 64 * me)" % (1000 * self.number + place))
            lines.append("MPI_Pack(%s, %d, %s, packed, all, &at, comm);" % (data.pointer(given, reach), many, of.expression))
        lines += ["MPI_Sendrecv(packed, at, MPI_PACKED, (me + 1) % size, 3, came, all, MPI_PACKED, (me + size - 1) % size, 3, comm, &status);",
                  "MPI_Get_count(&status, MPI_PACKED, &length);", "at = 0;"]
        for place, (of, many) in enumerate(self.items):
            reach = of.reach(many)
            lines += ["unsigned char *out%d = room(%d);" % (place, data.span(reach)),
                      "MPI_Unpack(came, length, &at, %s, %d, %s, comm);" % (data.pointer("out%d" % place, reach), many, of.expression),
                      'tell_room("%sitem %d", out%d);' % (of.mark, place, place)]
        return lines + ['observe("all %d", at == length);', *self.types.frees()]
