/* Members whose counts differ in a long collective are told, as those of a short one are, and the collective behind it
 * is right; so are those whose operations differ in a reduction of long doubles. */
#include "test.h"

enum { LONG = 3 << 20, SHORT = 2 << 20, FEW = 24 };

static MPI_Comm comm;
static unsigned char *own, *all;

/* So many bytes at the last rank, and more at the others. */
static int bytes_here(void) { return test_rank == test_size - 1 ? SHORT : LONG; }

/* The collective behind one that failed: of the same communicator. */
static void check_behind(void) {
    int mine = test_rank + 1, sum = 0;
    CHECK(MPI_Allreduce(&mine, &sum, 1, MPI_INT, MPI_SUM, comm) == MPI_SUCCESS);
    CHECK(sum == test_size * (test_size + 1) / 2);
}

/* Whoever is to be told is told, and nobody else. */
static void check_told(int code, bool is_told) {
    CHECK(is_told ? class_of(code) == MPI_ERR_NOT_SAME : code == MPI_SUCCESS);
    check_behind();
}

/* The root leaves at once, and so does who has received as much as it wants. */
static void check_broadcast(void) {
    const bool is_last = test_rank == test_size - 1;
    memset(own, test_rank == 0 ? 5 : 0, LONG);
    check_told(MPI_Bcast(own, bytes_here(), MPI_BYTE, 0, comm), is_last);
    CHECK(is_all(own, LONG, is_last ? 0 : 5));
    check_told(MPI_Bcast(own, bytes_here() / 4, MPI_INT, test_size - 1, comm), !is_last);
}

/* The root alone waits for the others; but sums of integers come together at member 0, which hands them on. */
static void check_rooted(int root) {
    const bool is_middle = test_rank == 0;
    check_told(MPI_Reduce(own, all, bytes_here() / 4, MPI_INT, MPI_SUM, root, comm), is_middle || test_rank == root);
    check_told(MPI_Reduce(own, all, bytes_here() / 8, MPI_DOUBLE, MPI_SUM, root, comm), test_rank == root);
    check_told(MPI_Reduce(own, all, bytes_here() / 16, MPI_LONG_DOUBLE, MPI_SUM, root, comm), test_rank == root);
    check_told(MPI_Gather(own, bytes_here(), MPI_BYTE, all, bytes_here(), MPI_BYTE, root, comm), test_rank == root);
}

/* The root waits for nobody. */
static void check_scatter(void) {
    const bool is_last = test_rank == test_size - 1;
    check_told(MPI_Scatter(all, bytes_here(), MPI_BYTE, own, bytes_here(), MPI_BYTE, 0, comm), is_last);
    check_told(MPI_Scatter(all, bytes_here(), MPI_BYTE, own, bytes_here(), MPI_BYTE, test_size - 1, comm), !is_last);
}

static void check_allreduce(void) {
    check_told(MPI_Allreduce(own, all, bytes_here() / 4, MPI_INT, MPI_MAX, comm), true);
    check_told(MPI_Allreduce(own, all, bytes_here() / 8, MPI_DOUBLE, MPI_SUM, comm), true);
    check_told(MPI_Allreduce(own, all, bytes_here() / 16, MPI_LONG_DOUBLE, MPI_SUM, comm), true);
}

/* A reduction of long doubles whose operation differs at the last rank, or whose type does. */
static void check_long_doubles(int root, int count) {
    const bool is_last = test_rank == test_size - 1, is_root = test_rank == root;
    const MPI_Op fold = is_last ? MPI_PROD : MPI_SUM, choice = is_last ? MPI_MIN : MPI_MAX;
    const MPI_Datatype type = is_last ? MPI_DOUBLE : MPI_LONG_DOUBLE;
    check_told(MPI_Reduce(own, all, count, MPI_LONG_DOUBLE, fold, root, comm), is_root);
    check_told(MPI_Reduce(own, all, count, MPI_LONG_DOUBLE, choice, root, comm), is_root);
    check_told(MPI_Reduce(own, all, count, type, MPI_SUM, root, comm), is_root);
    check_told(MPI_Allreduce(own, all, count, MPI_LONG_DOUBLE, fold, comm), true);
    check_told(MPI_Allreduce(own, all, count, MPI_LONG_DOUBLE, choice, comm), true);
    check_told(MPI_Allreduce(own, all, count, type, MPI_SUM, comm), true);
}

/* The same where one enters another collective: it leaves, and the others are told. */
static void check_other_kinds(int count) {
    int code;
    if (test_rank < test_size - 1) code = MPI_Allreduce(own, all, count, MPI_LONG_DOUBLE, MPI_SUM, comm);
    else code = MPI_Reduce(own, all, count, MPI_LONG_DOUBLE, MPI_SUM, 0, comm);
    check_told(code, test_rank < test_size - 1);
    if (test_rank < test_size - 1) code = MPI_Reduce(own, all, count, MPI_LONG_DOUBLE, MPI_SUM, 0, comm);
    else code = MPI_Gather(own, count, MPI_LONG_DOUBLE, all, count, MPI_LONG_DOUBLE, 0, comm);
    check_told(code, test_rank == 0);
}

int main(int argc, char **argv) {
    test_begin(&argc, &argv);
    return_errors();
    MPI_Comm_dup(MPI_COMM_WORLD, &comm);
    own = calloc(1, LONG);
    all = calloc((size_t)test_size, LONG);
    check_broadcast();
    check_rooted(0);
    check_rooted(test_size - 1);
    check_scatter();
    check_allreduce();
    for (int root = 0; root < test_size; root++) check_long_doubles(root, root * FEW);
    check_other_kinds(FEW);
    MPI_Comm_free(&comm);
    free(own);
    free(all);
    return test_end();
}
