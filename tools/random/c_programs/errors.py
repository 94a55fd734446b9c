"""Errors that are provoked on purpose where the standard says well what is told: the class is compared."""

import blocks

# What is called, each on a communicator of its own whose handler returns; and the class that comes is told.
LOCAL = (
    ("send to a rank too high", "MPI_Send(&x, 1, MPI_INT, size + 3, 0, comm)"),
    ("send to a negative rank", "MPI_Send(&x, 1, MPI_INT, -20, 0, comm)"),
    ("isend to a rank too high", "MPI_Isend(&x, 1, MPI_INT, size, 0, comm, &q)"),
    ("receive of a rank too high", "MPI_Recv(&x, 1, MPI_INT, size + 1, 0, comm, &status)"),
    ("irecv of a rank too high", "MPI_Irecv(&x, 1, MPI_INT, size + 1, 0, comm, &q)"),
    ("probe of a rank too high", "MPI_Probe(size + 1, 0, comm, &status)"),
    ("negative count", "MPI_Send(&x, -1, MPI_INT, 0, 0, comm)"),
    ("negative count received", "MPI_Recv(&x, -1, MPI_INT, 0, 0, comm, &status)"),
    ("negative tag", "MPI_Send(&x, 1, MPI_INT, 0, -50, comm)"),
    ("negative tag received", "MPI_Irecv(&x, 1, MPI_INT, 0, -50, comm, &q)"),
    ("no type", "MPI_Send(&x, 1, MPI_DATATYPE_NULL, 0, 0, comm)"),
    ("no type received", "MPI_Recv(&x, 1, MPI_DATATYPE_NULL, 0, 0, comm, &status)"),
    ("a type that isn't committed", "MPI_Send(&x, 1, open, 0, 0, comm)"),
    ("root too high", "MPI_Bcast(&x, 1, MPI_INT, size + 2, comm)"),
    ("negative root", "MPI_Bcast(&x, 1, MPI_INT, -30, comm)"),
    ("root of a reduction too high", "MPI_Reduce(&x, &y, 1, MPI_INT, MPI_SUM, size, comm)"),
    ("no operation", "MPI_Allreduce(&x, &y, 1, MPI_INT, MPI_OP_NULL, comm)"),
    ("negative count of a collective", "MPI_Bcast(&x, -1, MPI_INT, 0, comm)"),
    ("no type of a collective", "MPI_Bcast(&x, 1, MPI_DATATYPE_NULL, 0, comm)"),
    ("an operation that doesn't fit", "MPI_Allreduce(&d, &e, 1, MPI_DOUBLE, MPI_BAND, comm)"),
    ("no grid", "MPI_Cart_rank(comm, &x, &y)"),
    ("no grid's coordinates", "MPI_Cart_coords(comm, 0, 1, &x)"),
    ("no graph", "MPI_Graph_neighbors_count(comm, 0, &x)"),
    ("a key that isn't got", "MPI_Comm_get_attr(comm, MPI_KEYVAL_INVALID, &p, &flag)"),
    ("sendrecv to a rank too high", "MPI_Sendrecv(&x, 1, MPI_INT, size + 3, 0, &y, 1, MPI_INT, 0, 0, comm, &status)"),
    ("a persistent send to a rank too high", "MPI_Send_init(&x, 1, MPI_INT, size + 3, 0, comm, &q)"),
    ("gather with a root too high", "MPI_Gather(&x, 1, MPI_INT, &y, 1, MPI_INT, size + 1, comm)"),
    ("scatter with a negative root", "MPI_Scatter(&x, 1, MPI_INT, &y, 1, MPI_INT, -40, comm)"),
    ("iprobe with a negative tag", "MPI_Iprobe(0, -60, comm, &flag, &status)"),
    ("split with no communicator", "MPI_Comm_split(MPI_COMM_NULL, 0, 0, &other)"),
)
# Those of no communicator of their own are told to the handler of MPI_COMM_WORLD.
GLOBAL = (
    ("no communicator", "MPI_Send(&x, 1, MPI_INT, 0, 0, MPI_COMM_NULL)"),
    ("no communicator's size", "MPI_Comm_size(MPI_COMM_NULL, &x)"),
    ("MPI_COMM_WORLD is freed", "MPI_Comm_free(&world)"),
    ("no group", "MPI_Group_size(MPI_GROUP_NULL, &x)"),
    ("a rank too high in a group", "MPI_Group_incl(all, 1, &high, &made)"),
    ("a basic type is freed", "MPI_Type_free(&basic)"),
    ("a negative count of a type", "MPI_Type_contiguous(-1, MPI_INT, &type)"),
    ("a type of no type", "MPI_Type_contiguous(1, MPI_DATATYPE_NULL, &type)"),
    ("no type's size", "MPI_Type_size(MPI_DATATYPE_NULL, &x)"),
    ("a predefined operation is freed", "MPI_Op_free(&op)"),
    ("an Info key that isn't", 'MPI_Info_delete(info, "absent")'),
    ("an Info key of no length", 'MPI_Info_set(info, "", "x")'),
    ("dimensions that don't divide", "MPI_Dims_create(7, 2, sizes)"),
)


class Errors(blocks.Block):
    """Wrong calls."""

    name = "errors"

    def __init__(self, draft, comm):
        super().__init__(draft, [comm])
        chance, self.comm = draft.chance, comm
        self.parts = [("comm", *it) for it in chance.sample(LOCAL, chance.randint(3, 9))]
        self.parts += [("world", *it) for it in chance.sample(GLOBAL, chance.randint(2, 5))]
        self.has_own = chance.random() < .4

    def statics(self):
        n = self.number
        return ["static int calls%d;" % n, "static void handler%d(MPI_Comm *comm, int *code, ...) {" % n, "    calls%d++;" % n,
                '    observe("handler %s", class_word(*code));', "}"]

    def lines(self):
        n = self.number
        own = ["MPI_Comm_create_errhandler(handler%d, &handler);" % n] if self.has_own else ["handler = MPI_ERRORS_RETURN;"]
        lines = ["MPI_Comm old = %s, comm, world = MPI_COMM_WORLD, other = MPI_COMM_NULL;" % self.comm.expression,
                 "int me, size, x = 0, y = 0, flag, high = 1000, key = MPI_KEYVAL_INVALID, sizes[2] = {2, 0};",
                 "double d = 0, e = 0;", "void *p;", "if (!enter(old, &me, &size)) return;",
                 "MPI_Request q = MPI_REQUEST_NULL;", "MPI_Status status;", "MPI_Errhandler handler, had;", "MPI_Group all, made;",
                 "MPI_Datatype open, type, basic = MPI_INT;", "MPI_Op op = MPI_SUM;", "MPI_Info info;", "MPI_Info_create(&info);",
                 "MPI_Type_contiguous(1, MPI_INT, &open);", "MPI_Comm_dup(old, &comm);", "MPI_Comm_group(comm, &all);", *own,
                 "MPI_Comm_set_errhandler(comm, handler);", "MPI_Comm_get_errhandler(MPI_COMM_WORLD, &had);",
                 "MPI_Comm_set_errhandler(MPI_COMM_WORLD, handler);"]
        for of, what, call in self.parts:
            lines.append('tell_class("%s", %s);' % (what, call))
        lines += ["MPI_Comm_set_errhandler(MPI_COMM_WORLD, had);", "MPI_Errhandler_free(&had);", 'observe("handled %%d", calls%d);' % n]
        if self.has_own:
            lines.append("MPI_Errhandler_free(&handler);")
        return lines + ["MPI_Comm_free(&comm);", "MPI_Group_free(&all);", "MPI_Type_free(&open);", "MPI_Info_free(&info);"]


class Truncated(blocks.Block):
    """A message that is longer than its receive (3.2.4): the class, and that what comes next is whole."""

    name = "truncation"

    def __init__(self, draft, comm):
        super().__init__(draft, [comm])
        chance, self.comm = draft.chance, comm
        self.sent, self.taken = chance.choice(((2, 1), (50, 49), (3000, 10), (300, 0)))
        self.how = chance.choice(("recv", "wait", "waitall", "test"))

    def lines(self):
        n = self.number
        room = "numbers(%d)" % (self.sent + 1)
        begin = "MPI_Irecv(%s, %d, MPI_INT, me - 1, 5, comm, &q)" % (room, self.taken)
        taken = {"recv": ['tell_class("recv", MPI_Recv(%s, %d, MPI_INT, me - 1, 5, comm, &status));' % (room, self.taken)],
                 "wait": [begin + ";", 'tell_class("wait", MPI_Wait(&q, &status));'],
                 "test": [begin + ";", "do code = MPI_Test(&q, &flag, &status);", "while (code == MPI_SUCCESS && !flag);",
                          'tell_class("test", code);'],
                 "waitall": [begin + ";", 'tell_class("waitall", MPI_Waitall(1, &q, &status));',
                             'tell_class("its error", status.MPI_ERROR);']}[self.how]
        return ["MPI_Comm old = %s, comm;" % self.comm.expression, "int me, size, code, flag, next = 0;", "MPI_Request q;", "MPI_Status status;",
                "if (!enter(old, &me, &size)) return;", "MPI_Comm_dup(old, &comm);", "MPI_Comm_set_errhandler(comm, MPI_ERRORS_RETURN);",
                # MPICH's MPI_Test tells the handler of MPI_COMM_WORLD.
                "MPI_Comm_set_errhandler(MPI_COMM_WORLD, MPI_ERRORS_RETURN);", "if (me % 2 == 0 && me + 1 < size) {", "    int sum = %d;" % n,
                "    MPI_Send(filled(%d, (unsigned)(%d + me)), %d, MPI_INT, me + 1, 5, comm);" % (4 * self.sent, n, self.sent),
                "    MPI_Send(&sum, 1, MPI_INT, me + 1, 6, comm);", "}", "if (me % 2 == 1) {",
                *blocks.indented(taken), "    MPI_Recv(&next, 1, MPI_INT, me - 1, 6, comm, &status);", '    observe("next %d", next);', "}",
                "MPI_Comm_set_errhandler(MPI_COMM_WORLD, MPI_ERRORS_ARE_FATAL);", "MPI_Comm_free(&comm);"]
