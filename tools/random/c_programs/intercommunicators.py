"""Communicators of two groups (6.6): messages and collectives between the halves of a communicator, and both together in one."""

import blocks

KINDS = ("barrier", "bcast", "gather", "scatter", "allgather", "alltoall", "reduce", "allreduce", "reduce_scatter_block", "allgatherv",
         "alltoallv", "gatherv", "scatterv")


class Halves(blocks.Block):
    """Two halves of a communicator."""

    name = "halves"

    def __init__(self, draft, comm):
        super().__init__(draft, [comm])
        chance, self.comm = draft.chance, comm
        self.cut, self.most, self.high = chance.randrange(8), chance.choice((1, 3, 100, 1500)), chance.randint(0, 1)
        self.parts = [(place, chance.choice(KINDS), chance.randint(0, 1), chance.randrange(8)) for place in range(chance.randint(1, 4))]
        self.waits, self.copies = chance.random() < .6, chance.random() < .3

    def lines(self):
        n, most = self.number, self.most
        lines = ["MPI_Comm comm = %s, local, inter, merged;" % self.comm.expression, "int me, size, mine, many, others, is_inter, told;",
                 "if (!enter(comm, &me, &size) || size < 2) return;", "int cut = 1 + %d %% (size - 1), half = me >= cut;" % self.cut,
                 "MPI_Comm_split(comm, half, me, &local);", "MPI_Intercomm_create(local, 0, comm, half ? 0 : cut, %d, &inter);" % n,
                 "MPI_Comm_test_inter(inter, &is_inter);", "MPI_Comm_rank(inter, &mine);", "MPI_Comm_size(inter, &many);",
                 "MPI_Comm_remote_size(inter, &others);",
                 'observe("inter %d rank %d of %d beside %d", is_inter != 0, mine, many, others);',
                 "MPI_Group far, near, all;", "MPI_Comm_remote_group(inter, &far);", "MPI_Comm_group(inter, &near);", "MPI_Comm_group(comm, &all);",
                 "int zero = 0, there, here;", "MPI_Group_translate_ranks(far, 1, &zero, all, &there);",
                 "MPI_Group_translate_ranks(near, 1, &zero, all, &here);", 'observe("first %s and %s", rank_word(there), rank_word(here));',
                 "MPI_Group_free(&far);", "MPI_Group_free(&near);", "MPI_Group_free(&all);", *self.copied(), *self.messages(),
                 "int *in = numbers(%d * 16), *out = numbers(%d * 16), *counts = numbers(16), *places = numbers(16);" % (most, most),
                 "for (int i = 0; i < 16; i++) counts[i] = %d, places[i] = i * %d;" % (most, most)]
        for place, kind, of, root in self.parts:
            lines += self.collective(place, kind, of, root)
        return lines + ["MPI_Intercomm_merge(inter, %s, &merged);" % ("half" if self.high else "!half"), 'tell_comm("merged", merged);',
                        "MPI_Comm_compare(merged, comm, &told);", 'observe("compared %s", compared_word(told));', "MPI_Comm_free(&merged);",
                        "MPI_Comm_free(&inter);", "MPI_Comm_free(&local);"]

    def copied(self):
        if not self.copies:
            return []
        return ["MPI_Comm copy;", "MPI_Comm_dup(inter, &copy);", "MPI_Comm_compare(inter, copy, &told);", 'observe("copy %s", compared_word(told));',
                "MPI_Comm_free(&copy);"]

    def messages(self):
        """Each sends to one of the others; and takes from those of them that send to it."""
        return ["MPI_Request sent;", "MPI_Status status;", "int *given = numbers(%d);" % self.most, "uint32_t sum = 0;",
                "fill(given, sizeof(int) * %d, (unsigned)(%d + me));" % (self.most, self.number),
                "MPI_Isend(given, %d, MPI_INT, mine %% others, 4, inter, &sent);" % self.most,
                "for (int i = 0; i < others; i++) {", "    if (i % many != mine) continue;", "    int *came = numbers(%d);" % self.most,
                "    MPI_Recv(came, %d, MPI_INT, %s, 4, inter, &status);" % (self.most, "MPI_ANY_SOURCE" if self.cut % 2 else "i"),
                "    sum += mixed(sum_of(came, sizeof(int) * %d), (uint32_t)status.MPI_SOURCE, 3);" % self.most, "}",
                "MPI_Wait(&sent, &status);", 'observe("came %08x", sum);']

    def collective(self, place, kind, of, root):
        """The root is a member of the half that is named; its half's other members hand in MPI_PROC_NULL."""
        most, tail = self.most, "inter);" if self.waits else "inter, &sent);"
        name = "MPI_%s" % (kind.capitalize() if self.waits else "I" + kind)
        at_root = "half == %d ? (mine == %d %% many ? MPI_ROOT : MPI_PROC_NULL) : %d %% others" % (of, root, root)
        given, got = "in, %d, MPI_INT" % most, "out, %d, MPI_INT" % most
        words = {"barrier": "", "bcast": "half == %d ? in : out, %d, MPI_INT, root, " % (of, most),
                 "gather": "%s, %s, root, " % (given, got), "scatter": "%s, %s, root, " % (given, got),
                 "allgather": "%s, %s, " % (given, got), "alltoall": "%s, %s, " % (given, got),
                 "reduce": "in, out, %d, MPI_INT, MPI_BXOR, root, " % most, "allreduce": "in, out, %d, MPI_INT, MPI_BXOR, " % most,
                 "reduce_scatter_block": "in, out, %d * others, MPI_INT, MPI_BXOR, " % min(most, 100),
                 "allgatherv": "%s, out, counts, places, MPI_INT, " % given,
                 "alltoallv": "in, counts, places, MPI_INT, out, counts, places, MPI_INT, ",
                 "gatherv": "%s, out, counts, places, MPI_INT, root, " % given,
                 "scatterv": "in, counts, places, MPI_INT, %s, root, " % got}[kind]
        lines = ["{", "    int root = %s;" % at_root, "    (void)root;",
                 "    fill(in, sizeof(int) * %d * 16, (unsigned)(%d + 64 * me));" % (most, 100 * self.number + place),
                 "    memset(out, 0, sizeof(int) * %d * 16);" % most, "    %s(%s%s" % (name, words, tail)]
        if not self.waits:
            lines.append("    MPI_Wait(&sent, &status);")
        mark = "~inter_ibcast " if kind == "bcast" and not self.waits else ""
        return lines + ['    observe("%s%s %d %%08x", (unsigned)sum_of(out, sizeof(int) * %d * 16));' % (mark, kind, place, most), "}"]
