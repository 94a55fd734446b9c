"""Grids and graphs, what is told of them, and exchanges with neighbours."""

import blocks
import data
from traffic import WAYS


def factors(chance, size, ndims):
    """Sizes of so many dimensions whose product is the size, or less."""
    left, sizes = size, []
    for _ in range(ndims):
        some = [it for it in range(1, left + 1) if left % it == 0]
        sizes.append(chance.choice(some))
        left //= sizes[-1]
    if chance.random() < .7:
        sizes[chance.randrange(ndims)] *= left
    return sizes


class Grid(blocks.Block):
    """A Cartesian grid of a communicator with one group, its coordinates and shifts."""

    name = "grid"

    def __init__(self, draft, old):
        super().__init__(draft, [old])
        chance = draft.chance
        self.old, group = old, old.groups[0]
        self.sizes = factors(chance, len(group), chance.randint(1, 3))
        self.rings = [chance.randint(0, 1) for _ in self.sizes]
        self.place, many = draft.next_place(), 1
        for it in self.sizes:
            many *= it
        self.made = draft.add_comm([group[:many]], ("grid", self.sizes, self.rings))
        self.makes = {self.made.key}
        self.shifts = [(chance.randrange(len(self.sizes)), chance.randint(-2, 2)) for _ in range(3)]

    def lines(self):
        many, made = len(self.sizes), self.made.expression
        lines = ["MPI_Comm old = %s;" % self.old.expression, "if (old == MPI_COMM_NULL) return;",
                 "int sizes[] = {%s}, rings[] = {%s}, told[3], told_rings[3], at[3], rank, from, to, many, kind;" % (
                     ", ".join(map(str, self.sizes)), ", ".join(map(str, self.rings))),
                 "MPI_Cart_create(old, %d, sizes, rings, 0, &%s);" % (many, made), 'tell_comm("made", %s);' % made,
                 "if (%s == MPI_COMM_NULL) return;" % made,
                 "MPI_Topo_test(%s, &kind);" % made, "MPI_Cartdim_get(%s, &many);" % made,
                 'observe("kind %d dimensions %d", kind == MPI_CART, many);', "MPI_Cart_get(%s, %d, told, told_rings, at);" % (made, many),
                 'for (int i = 0; i < %d; i++) observe("of %%d ring %%d at %%d", told[i], told_rings[i] != 0, at[i]);' % many,
                 "MPI_Cart_rank(%s, at, &rank);" % made, 'observe("rank %d", rank);',
                 "MPI_Cart_coords(%s, 0, %d, at);" % (made, many), 'observe("first %d", at[0]);']
        for dimension, by in self.shifts:
            lines += ["MPI_Cart_shift(%s, %d, %d, &from, &to);" % (made, dimension, by),
                      'observe("shift %d %d from %%s to %%s", rank_word(from), rank_word(to));' % (dimension, by)]
        return lines + ["MPI_Cart_map(%s, %d, sizes, rings, &rank);" % (made, many), 'observe("mapped %d", rank >= 0);']


class SubGrid(blocks.Block):
    """Parts of a grid that keep some of its dimensions."""

    name = "parts of a grid"

    def __init__(self, draft, grid):
        super().__init__(draft, [grid])
        self.grid, (_, sizes, rings) = grid, grid.topology
        self.kept = [draft.chance.randint(0, 1) for _ in sizes]
        self.kept[draft.chance.randrange(len(sizes))] = 1
        self.place, groups = draft.next_place(), {}
        for rank, world in enumerate(grid.groups[0]):
            at, left = [], rank
            for size in reversed(sizes):
                at.insert(0, left % size)
                left //= size
            groups.setdefault(tuple(it for it, kept in zip(at, self.kept) if not kept), []).append(world)
        left = [(size, ring) for size, ring, kept in zip(sizes, rings, self.kept) if kept]
        topology = ("grid", [it for it, _ in left], [it for _, it in left]) if left else None
        self.made = draft.add_comm(list(groups.values()), topology)
        self.makes = {self.made.key}

    def lines(self):
        made = self.made.expression
        return ["if (%s == MPI_COMM_NULL) return;" % self.grid.expression, "int kept[] = {%s}, many;" % ", ".join(map(str, self.kept)),
                "MPI_Cart_sub(%s, kept, &%s);" % (self.grid.expression, made), 'tell_comm("part", %s);' % made,
                "MPI_Cartdim_get(%s, &many);" % made, 'observe("dimensions %d", many);']


class Dimensions(blocks.Block):
    """Sizes of grids that are chosen (7.5.2): where one list alone is as close to each other as can be."""

    name = "dimensions"
    CASES = ((6, (0, 0)), (7, (0,)), (12, (0, 2)), (8, (0, 0, 0)), (4, (0, 0)), (16, (0, 0)), (6, (0, 3, 0)), (1, (0, 0)), (9, (0, 0)),
             (30, (0, 0, 5)), (5, (1, 0)), (64, (0, 0, 0)))

    def __init__(self, draft):
        super().__init__(draft)
        self.cases = draft.chance.sample(self.CASES, 4)

    def lines(self):
        lines = ["int sizes[3];"]
        for nodes, given in self.cases:
            lines += ["sizes[%d] = %d;" % it for it in enumerate(given)]
            lines.append("MPI_Dims_create(%d, %d, sizes);" % (nodes, len(given)))
            lines += ['observe("%d: %%d", sizes[%d]);' % (nodes, it) for it in range(len(given))]
        return lines


class Graph(blocks.Block):
    """A graph, or a distributed one, of a communicator with one group."""

    name = "graph"

    def __init__(self, draft, old, kind):
        super().__init__(draft, [old])
        chance, self.old, self.kind = draft.chance, old, kind
        self.size = len(old.groups[0])
        ranks = range(self.size)
        if kind == "graph":
            # Each edge in both directions.
            edges = [(a, b) for a in ranks for b in ranks if a < b and chance.random() < .5]
            self.targets = {r: [b if a == r else a for a, b in edges if r in (a, b)] for r in ranks}
            self.sources = self.targets
        else:
            edges = [(a, b) for a in ranks for b in ranks if chance.random() < .4]
            self.targets = {r: [b for a, b in edges if a == r] for r in ranks}
            self.sources = {r: [a for a, b in edges if b == r] for r in ranks}
        # Not asked for where there are none: see known.py.
        self.has_weights = chance.random() < .5 and all(self.sources[it] and self.targets[it] for it in ranks)
        self.place = draft.next_place()
        # The order of neighbours is open where others told of them (7.5.4), and so is what exchanges with them give.
        self.made = draft.add_comm(old.groups, ("graph", self.sources, self.targets) if kind != "told by others" else None)
        self.makes = {self.made.key}

    def statics(self):
        n = self.number
        rows = []
        for word, lists in (("sources", self.sources), ("targets", self.targets)):
            flat, starts = [], [0]
            for rank in range(self.size):
                flat += lists[rank]
                starts.append(len(flat))
            rows += ["static int %s%d[] = {%s};" % (word, n, ", ".join(map(str, flat)) or "0"),
                     "static int %s_at%d[] = {%s};" % (word, n, ", ".join(map(str, starts)))]
        return rows

    def lines(self):
        n, made = self.number, self.made.expression
        lines = ["MPI_Comm old = %s;" % self.old.expression, "int me, size, kind;", "if (!enter(old, &me, &size)) return;",
                 "int in = sources_at%d[me + 1] - sources_at%d[me], outward = targets_at%d[me + 1] - targets_at%d[me];" % (n, n, n, n),
                 "int *from = sources%d + sources_at%d[me], *to = targets%d + targets_at%d[me];" % (n, n, n, n),
                 "int in_weights[64], out_weights[64], told_in[64], told_out[64], is_weighted, many, edges;",
                 "for (int i = 0; i < 64; i++) in_weights[i] = 3 * i + me, out_weights[i] = 5 * i + me;"]
        weights = ("in_weights", "out_weights") if self.has_weights else ("MPI_UNWEIGHTED", "MPI_UNWEIGHTED")
        if self.kind == "graph":
            return lines + ["MPI_Graph_create(old, size, targets_at%d + 1, targets%d, 0, &%s);" % (n, n, made),
                            "MPI_Graphdims_get(%s, &many, &edges);" % made, 'observe("nodes %d edges %d", many, edges);',
                            "MPI_Graph_neighbors_count(%s, me, &many);" % made, "MPI_Graph_neighbors(%s, me, 64, told_in);" % made,
                            'for (int i = 0; i < many; i++) observe("neighbour %d", told_in[i]);', "MPI_Topo_test(%s, &kind);" % made,
                            'observe("kind %d", kind == MPI_GRAPH);', "int *index = numbers(size), *ends = numbers(edges);",
                            "MPI_Graph_get(%s, size, edges, index, ends);" % made,
                            'observe("index %08x edges %08x", (unsigned)sum_of(index, sizeof(int) * (size_t)size), '
                            '(unsigned)sum_of(ends, sizeof(int) * (size_t)edges));', 'tell_comm("made", %s);' % made]
        if self.kind == "adjacent":
            lines.append("MPI_Dist_graph_create_adjacent(old, in, from, %s, outward, to, %s, MPI_INFO_NULL, 0, &%s);" % (*weights, made))
        else:
            lines.append("MPI_Dist_graph_create(old, 1, &me, &outward, to, %s, MPI_INFO_NULL, 0, &%s);" % (weights[1], made))
        lines += ["MPI_Topo_test(%s, &kind);" % made, "MPI_Dist_graph_neighbors_count(%s, &in, &outward, &is_weighted);" % made,
                  'observe("kind %d in %d out %d weighted %d", kind == MPI_DIST_GRAPH, in, outward, is_weighted != 0);',
                  "MPI_Dist_graph_neighbors(%s, in, told_in, %s, outward, told_out, %s);" % (made, *weights)]
        if self.kind == "adjacent":
            lines += ['for (int i = 0; i < in; i++) observe("from %%d %%d", told_in[i], %s);' % ("in_weights[i]" if self.has_weights else "0"),
                      'for (int i = 0; i < outward; i++) observe("to %%d %%d", told_out[i], %s);' % (
                          "out_weights[i]" if self.has_weights else "0")]
        else:
            # Their order is open (7.5.4).
            lines += ["unsigned sum = 0;", "for (int i = 0; i < in; i++) sum += mixed((uint32_t)told_in[i], 1, 0);",
                      "for (int i = 0; i < outward; i++) sum += mixed((uint32_t)told_out[i], 2, 0);", 'observe("neighbours %08x", sum);']
        return lines + ['tell_comm("made", %s);' % made]


class Neighbours(blocks.Block):
    """An exchange with neighbours, some at once."""

    name = "neighbours"
    KINDS = ("allgather", "allgatherv", "alltoall", "alltoallv", "alltoallw")

    def __init__(self, draft, comm):
        super().__init__(draft, [comm], ())
        chance, self.comm, self.way = draft.chance, comm, draft.chance.choice(WAYS)
        self.types = data.Drawer(chance, "t%d" % self.number)
        self.parts = []
        for place in range(chance.choice((1, 1, 2, 3))):
            name = self.types.a_basic_name()
            type_of = self.types.typed(name, chance.choice((0, 1)), 800)
            self.parts.append((place, chance.choice(self.KINDS), chance.random() < .5, type_of, chance.choice((0, 1, 3, 20))))

    def statics(self):
        return [self.types.declaration()]

    def lines(self):
        lines = ["MPI_Comm comm = %s;" % self.comm.expression, "int me, size, in, outward;", "if (!enter(comm, &me, &size)) return;",
                 *self.counts(), *self.types.lines, "MPI_Request q[4] = {MPI_REQUEST_NULL, MPI_REQUEST_NULL, MPI_REQUEST_NULL, MPI_REQUEST_NULL};",
                 "MPI_Status s[4];", "unsigned char *out[4];"]
        for it in self.parts:
            lines += ["{", *blocks.indented(self.part(*it)), "}"]
        lines.append("end_all(%s, 4, q, s);" % self.way)
        for place, kind, _, type_of, _ in self.parts:
            mark = "~small_rings " if kind.startswith("alltoall") and self.has_small_rings() else type_of.mark
            lines.append('tell_room("%sneighbours %d %s", out[%d]);' % (mark, place, kind, place))
        return lines + self.types.frees()

    def has_small_rings(self):
        kind, sizes, rings = self.comm.topology
        return kind == "grid" and any(ring and size <= 2 for size, ring in zip(sizes, rings))

    def counts(self):
        if self.comm.topology[0] == "grid":
            return ["MPI_Cartdim_get(comm, &in);", "in = outward = 2 * in;"]
        return ["int kind, is_weighted;", "MPI_Topo_test(comm, &kind);",
                "if (kind == MPI_DIST_GRAPH) {", "    MPI_Dist_graph_neighbors_count(comm, &in, &outward, &is_weighted);", "} else {",
                "    MPI_Graph_neighbors_count(comm, me, &in);", "    outward = in;", "}"]

    def part(self, place, kind, waits, type_of, most):
        seed, reach = 1000 * self.number + 17 * place, type_of.reach(16 * (most + 1))
        given = data.filled(type_of, data.span(reach), "(unsigned)(%d + 64 * me)" % seed)
        lines = ["unsigned char *given = %s;" % given, "out[%d] = room(%d);" % (place, data.span(reach))]
        sent, got = data.pointer("given", reach), data.pointer("out[%d]" % place, reach)
        name = "MPI_%s" % (("neighbor_" + kind).capitalize() if waits else "Ineighbor_" + kind)
        tail = "comm);" if waits else "comm, &q[%d]);" % place
        of = type_of.expression
        if kind in ("allgather", "alltoall"):
            return lines + ["%s(%s, %d, %s, %s, %d, %s, %s" % (name, sent, most, of, got, most, of, tail)]
        # Each sends as many items to all, so that all know how many come.
        lines += ["int *counts = numbers(16), *places = numbers(16), *sent_counts = numbers(16), *sent_places = numbers(16);",
                  "for (int i = 0; i < 16; i++) counts[i] = sent_counts[i] = %d, places[i] = (15 - i) * %d, sent_places[i] = i * %d;" % (
                      most, most + 1, most + 1)]
        if kind == "allgatherv":
            return lines + ["%s(%s, %d, %s, %s, counts, places, %s, %s" % (name, sent, most, of, got, of, tail)]
        if kind == "alltoallv":
            return lines + ["%s(%s, sent_counts, sent_places, %s, %s, counts, places, %s, %s" % (name, sent, of, got, of, tail)]
        lines += ["MPI_Datatype *types = (MPI_Datatype *)room(16 * sizeof(MPI_Datatype));",
                  "MPI_Aint *far = (MPI_Aint *)room(16 * sizeof(MPI_Aint)), *sent_far = (MPI_Aint *)room(16 * sizeof(MPI_Aint));",
                  "for (int i = 0; i < 16; i++) types[i] = %s, far[i] = places[i] * %d, sent_far[i] = sent_places[i] * %d;" % (
                      of, type_of.map.extent(), type_of.map.extent())]
        return lines + ["%s(%s, sent_counts, sent_far, types, %s, counts, far, types, %s" % (name, sent, got, tail)]
