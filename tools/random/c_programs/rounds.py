"""Persistent requests that begin again and again."""

import blocks
import data
from traffic import WAYS

KINDS = ("Send", "Ssend", "Bsend", "Rsend")


class Rounds(blocks.Block):
    """Each member has requests to and from its neighbours in a ring, and starts them some times."""

    name = "persistent"

    def __init__(self, draft, comm):
        super().__init__(draft, [comm])
        chance, self.comm = draft.chance, comm
        self.rounds, self.way, self.kinds = chance.randint(1, 4), chance.choice(WAYS), [chance.choice(KINDS) for _ in range(chance.randint(1, 3))]
        self.types = data.Drawer(chance, "t%d" % self.number)
        self.sent = self.types.typed(self.types.a_basic_name(), chance.choice((0, 1)), 400)
        self.many, self.has_all = chance.choice((0, 1, 8, 100, 400)), chance.random() < .5

    def statics(self):
        return [self.types.declaration()]

    def lines(self):
        n, most, of, many = self.number, len(self.kinds), self.sent.expression, self.many
        reach = self.sent.reach(many)
        length = data.span(reach)
        lines = ["MPI_Comm comm = %s;" % self.comm.expression, "int me, size, need = 0;", "if (!enter(comm, &me, &size)) return;", *self.types.lines,
                 "MPI_Request q[%d];" % (2 * most), "MPI_Status s[%d];" % (2 * most), "unsigned char *in[%d], *out[%d];" % (most, most),
                 "int to = (me + 1) % size, from = (me + size - 1) % size;", "need = %d * buffered(%d, %s, comm);" % (most * self.rounds, many, of)]
        has_buffer = "Bsend" in self.kinds
        lines += ["attach(need);"] if has_buffer else []
        for at, kind in enumerate(self.kinds):
            lines += ["in[%d] = room(%d), out[%d] = room(%d);" % (at, length, at, length),
                      "MPI_Recv_init(%s, %d, %s, from, %d, comm, &q[%d]);" % (data.pointer("in[%d]" % at, reach), many, of, at, 2 * at),
                      "MPI_%s_init(%s, %d, %s, to, %d, comm, &q[%d]);" % (kind, data.pointer("out[%d]" % at, reach), many, of, at, 2 * at + 1)]
        inside = ["for (int i = 0; i < %d; i++) fill(out[i], %d, (unsigned)(%d + 64 * round + me));" % (most, length, 1000 * n)]
        if self.sent.basic == "C_BOOL":
            inside.append("for (int i = 0; i < %d; i++) for (int j = 0; j < %d; j++) out[i][j] &= 1;" % (most, length))
        if "Rsend" in self.kinds:
            inside += ["for (int i = 0; i < %d; i++) MPI_Start(&q[2 * i]);" % most, "MPI_Barrier(comm);",
                       "for (int i = 0; i < %d; i++) MPI_Start(&q[2 * i + 1]);" % most]
        elif self.has_all:
            inside.append("MPI_Startall(%d, q);" % (2 * most))
        else:
            inside.append("for (int i = %d; i >= 0; i--) MPI_Start(&q[i]);" % (2 * most - 1))
        inside.append("end_all(%s, %d, q, s);" % (self.way, 2 * most))
        for at, kind in enumerate(self.kinds):
            mark = "~buffered_rounds " if kind == "Bsend" else self.sent.mark
            inside += ['tell_status("round of %d", &s[%d], %s);' % (at, 2 * at, self.sent.told),
                       'tell_room("%sround of %d", in[%d]);' % (mark, at, at)]
        lines += ["for (int round = 0; round < %d; round++) {" % self.rounds, *blocks.indented(inside), "}",
                  'observe("kept %d", q[0] != MPI_REQUEST_NULL);', "free_all(%d, q);" % (2 * most)]
        return lines + (["detach(need);"] if has_buffer else []) + self.types.frees()
