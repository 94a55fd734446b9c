"""SPOOLES: its tests of distributed matrices, lists and graphs, which compare sums of what was sent with sums of what came."""

from described import Program, Run, says, small

# Each test with its words, as in SPOOLES's own scripts, for smaller sizes.
TESTS = {"IV_allgather": "1 stdout 1000 10101", "IVL_alltoall": "1 stdout 30 10101", "IVL_Bcast": "1 stdout 100 20 1 10101",
         "Graph_Bcast": "1 stdout 3 100 500 1 10101", "MMM": "1 stdout 30 30 200 4 2 2 2 0 10101 0.5 2.0",
         "Gather": "1 stdout 2 200 10 10 1 10101", "SplitDenseMtx": "1 stdout 1 100 4 4 1 10101",
         "ScatterDenseMtx": "1 stdout 2 100 4 4 1 10101 1", "SplitInpMtx": "1 stdout 20 100 10101 3 2",
         "ScatterInpMtx": "1 stdout 200 1000 10101 3 2 1"}
GRAPH = "for f in orig0.graphf nd.etreef; do gunzip -c $TREE/Matrices/R2D100/$f.gz > $f; done && "


def test(name):
    errors = small(r"error\w*(?: in checksum)? *[=:] *.*$", 1e-9)
    return Run(name, "$RUN $TREE/MPI/drivers/test%s %s" % (name, TESTS[name]), errors, (2, 4, 5))


# Its solvers, and the test IVL_allgather, hand one array to MPI_Allgather to send of and to receive into, which MPI forbids (5.7) and
# our library and MPICH refuse: so they aren't here.
PROGRAM = Program(
    "spooles", "2.2", "main/s/spooles/spooles_2.2.orig.tar.gz", "a84559a0e987a1e423055ef4fdf3035d55b65bbe4bf915efaa1a35bef7f8c5dd",
    "make CC=mpicc CFLAGS='-O1 -w' MPI_INCLUDE_DIR= MPI_LIBS= THREAD_LIBS=-lpthread lib && "
    "make -C MPI/drivers CC=mpicc CFLAGS='-O1 -w' MPI_INCLUDE_DIR= MPI_LIBS= THREAD_LIBS=-lpthread drivers",
    [*map(test, TESTS),
     Run("SymbFac", GRAPH + "$RUN $TREE/MPI/drivers/testSymbFac 1 stdout orig0.graphf nd.etreef 10101",
         says("^ 0 errors in symbolic factorization", never=["[1-9] errors in"]), (2, 4))],
    "its own sums of what was sent and of what came", ["MPI/drivers/test" + it for it in (*TESTS, "SymbFac")])
