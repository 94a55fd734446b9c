"""What members of collectives get (MPI 3.1, 5), worked out one item after the other, without MPI: a judge of player.c, whose words
these are."""
import collections
import struct
import zlib

KINDS = ("allgather allgatherv alltoall alltoallv alltoallw gather gatherv scatter scatterv bcast reduce allreduce scan exscan "
         "reduce_scatter reduce_scatter_block barrier").split()
OPERATIONS = ("sum", "max", "min", "prod", "band", "bxor", "land", "compose")
EMPTY = 0x5a5a5a5a
WORD = 1 << 32

Asked = collections.namedtuple("Asked", "kind waits comm root count operation in_place seed")


def mixed(one, two, three):
    x = (one * 2654435761 + two * 2246822519 + three * 3266489917 + 374761393) % WORD
    x ^= x >> 15
    x = x * 2246822519 % WORD
    return x ^ x >> 13


def members_of(comm, size):
    """The ranks in MPI_COMM_WORLD of each communicator of this number."""
    if comm < 2:
        return [list(range(size))]
    return [list(range(size - 1, -1, -1))[(size - 1 - colour) % 2::2] for colour in range(min(2, size))]


def folded(operation, rows):
    """The fold of the rows, in their order."""
    one = {"sum": lambda a, b: (a + b) % WORD, "prod": lambda a, b: a * b % WORD, "max": max, "min": min, "band": lambda a, b: a & b,
           "bxor": lambda a, b: a ^ b, "land": lambda a, b: int(a != 0 and b != 0)}
    result = list(rows[0])
    for row in rows[1:]:
        if operation == "compose":
            pairs = [((a * c) % WORD, (c * b + d) % WORD) for a, b, c, d in zip(result[::2], result[1::2], row[::2], row[1::2])]
            result = [it for pair in pairs for it in pair]
        else:
            result = [one[operation](a, b) for a, b in zip(result, row)]
    return result


class Group:
    """The members of a collective, and what each hands in."""

    def __init__(self, asked, ranks):
        self.asked, self.ranks, self.size = asked, ranks, len(ranks)
        self.stride, self.root = asked.count + 3, asked.root % len(ranks)
        self.given = [[mixed(asked.seed, rank, at) & 0x7fffffff for at in range(self.size * self.stride)] for rank in ranks]

    def length(self, one, other):
        return mixed(self.asked.seed, 64 * one + other, 77) % (self.asked.count + 1) & ~1

    def own(self, member):
        return self.length(member, 0)

    def pieces(self, me):
        """What a member gets: places, and the items that come there."""
        kind, n, given, size = KINDS[self.asked.kind], self.asked.count, self.given, self.size
        everyone, is_root = range(size), me == self.root
        if kind in ("allgather", "gather"):
            return [(j * n, given[j][:n]) for j in everyone if kind == "allgather" or is_root]
        if kind in ("allgatherv", "gatherv"):
            return [(j * self.stride, given[j][:self.own(j)]) for j in everyone if kind == "allgatherv" or is_root]
        if kind == "alltoall":
            return [(j * n, given[j][me * n:(me + 1) * n]) for j in everyone]
        if kind in ("alltoallv", "alltoallw"):
            return [(j * self.stride, given[j][me * self.stride:][:self.length(j, me)]) for j in everyone]
        if kind == "scatter":
            return [(0, given[self.root][me * n:(me + 1) * n])]
        if kind == "scatterv":
            return [(0, given[self.root][me * self.stride:][:self.own(me)])]
        return [(0, given[self.root][:n])] if kind == "bcast" else self.folds(kind, me)

    def folds(self, kind, me):
        n, operation = self.asked.count, OPERATIONS[self.asked.operation]
        fronts = [row[:n] for row in self.given]
        if kind == "reduce":
            return [(0, folded(operation, fronts))] if me == self.root else []
        if kind == "allreduce":
            return [(0, folded(operation, fronts))]
        if kind in ("scan", "exscan"):
            return [(0, folded(operation, fronts[:me + (kind == "scan")]))] if me or kind == "scan" else []
        if kind == "barrier":
            return []
        before = me * n if kind == "reduce_scatter_block" else sum(map(self.own, range(me)))
        own = n if kind == "reduce_scatter_block" else self.own(me)
        return [(0, folded(operation, [row[before:before + own] for row in self.given]))]

    def sum(self, me):
        """The checksum of all that a member has then."""
        kind = KINDS[self.asked.kind]
        if kind == "exscan" and me == 0:
            return 0
        words = self.size * self.stride
        if kind.startswith("reduce_scatter"):
            words = self.asked.count if kind == "reduce_scatter_block" else self.own(me)
        row = [EMPTY] * words
        for place, items in self.pieces(me):
            row[place:place + len(items)] = items
        return zlib.adler32(struct.pack("<%dI" % len(row), *row))


def lines_of(program, size):
    """What the ranks of a job tell of a program, sorted; the program is a list of what is asked, and None where all that was begun ends."""
    told = []
    for number, asked in enumerate(program, 1):
        if asked is not None:
            for ranks in members_of(asked.comm, size):
                group = Group(asked, ranks)
                told += ["%d %d %d" % (rank, number, group.sum(me)) for me, rank in enumerate(ranks)]
    return sorted(told)
