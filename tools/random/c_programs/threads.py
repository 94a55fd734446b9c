"""Threads that call MPI at the same time, each in a communicator of its own (12.4)."""

import blocks


class Threads(blocks.Block):
    """Some threads of each rank; each of them exchanges with the threads of its number."""

    name = "threads"

    def __init__(self, draft, comm):
        super().__init__(draft, [comm])
        chance, self.comm = draft.chance, comm
        self.many, self.rounds, self.most = chance.randint(2, 3), chance.randint(1, 4), chance.choice((1, 20, 600, 5000))
        self.kinds = [chance.choice(("ring", "any", "allreduce", "probe", "alltoall")) for _ in range(self.many)]

    def statics(self):
        n = self.number
        lines = ["static MPI_Comm own%d[%d];" % (n, self.many), "static struct log log%d[%d];" % (n, self.many)]
        for at, kind in enumerate(self.kinds):
            inside = ["own_log = &log%d[%d];" % (n, at), "MPI_Comm comm = own%d[%d];" % (n, at), "int me, size;", "enter(comm, &me, &size);",
                      "int *in = numbers(%d * size), *out = numbers(%d * size);" % (self.most, self.most),
                      "for (int round = 0; round < %d; round++) {" % self.rounds,
                      "    fill(in, sizeof(int) * (size_t)(%d * size), (unsigned)(%d + 64 * round + me));" % (self.most, 100 * n + at),
                      *blocks.indented(getattr(self, "a_" + kind)(at)),
                      "    observe(\"thread %d round %%d %%08x\", round, "
                      "(unsigned)sum_of(out, sizeof(int) * (size_t)(%d * size)));" % (at, self.most),
                      "}", "return nothing;"]
            lines += ["static void *thread%d_%d(void *nothing) {" % (n, at), *blocks.indented(inside), "}"]
        return lines

    def a_ring(self, at):
        return ["MPI_Request q[2];", "MPI_Status s[2];",
                "MPI_Irecv(out, %d, MPI_INT, (me + size - 1) %% size, round, comm, &q[0]);" % self.most,
                "MPI_Isend(in, %d, MPI_INT, (me + 1) %% size, round, comm, &q[1]);" % self.most, "end_all(%d, 2, q, s);" % (at % 9)]

    def a_any(self, at):
        return ["MPI_Request q;", "MPI_Status s;", "uint32_t sum = 0;", "MPI_Isend(in, %d, MPI_INT, 0, round, comm, &q);" % self.most,
                "for (int i = 0; i < size && me == 0; i++) {",
                "    MPI_Recv(out, %d, MPI_INT, MPI_ANY_SOURCE, round, comm, &s);" % self.most,
                "    sum += mixed(sum_of(out, sizeof(int) * %d), (uint32_t)s.MPI_SOURCE, 1);" % self.most, "}",
                "memset(out, 0, sizeof(int) * (size_t)%d);" % self.most, "MPI_Wait(&q, &s);", 'observe("sum %08x", sum);']

    def a_allreduce(self, at):
        return ["MPI_Allreduce(in, out, %d, MPI_INT, MPI_BXOR, comm);" % self.most]

    def a_probe(self, at):
        return ["MPI_Request q;", "MPI_Status s;", "MPI_Message message;", "int count;",
                "MPI_Isend(in, %d, MPI_INT, (me + 1) %% size, round, comm, &q);" % self.most,
                "MPI_Probe((me + size - 1) % size, round, comm, &s);", "MPI_Get_count(&s, MPI_INT, &count);",
                "MPI_Recv(out, count, MPI_INT, (me + size - 1) % size, round, comm, &s);", "MPI_Wait(&q, &s);"]

    def a_alltoall(self, at):
        return ["MPI_Alltoall(in, %d, MPI_INT, out, %d, MPI_INT, comm);" % (self.most, self.most)]

    def lines(self):
        n = self.number
        return ["MPI_Comm comm = %s;" % self.comm.expression, "if (comm == MPI_COMM_NULL) return;", "pthread_t threads[%d];" % self.many,
                "for (int i = 0; i < %d; i++) MPI_Comm_dup(comm, &own%d[i]);" % (self.many, n),
                *["pthread_create(&threads[%d], NULL, thread%d_%d, NULL);" % (at, n, at) for at in range(self.many)],
                "for (int i = 0; i < %d; i++) pthread_join(threads[i], NULL);" % self.many,
                "for (int i = 0; i < %d; i++) {" % self.many,
                '    observe("thread %%d: %%08x of %%d", i, (unsigned)sum_of(log%d[i].text, log%d[i].length), (int)log%d[i].length);' % (n, n, n),
                "    MPI_Comm_free(&own%d[i]);" % n, "}"]
