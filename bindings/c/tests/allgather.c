/* MPI_Allgather and MPI_Allgatherv (MPI 3.1, 5.7): block j of each result is what member j hands in. */
#include "test.h"

/* What member j hands in at a place. */
static int of(int member, int at) { return (int)mixed((unsigned)member, (unsigned)at, 1); }

static void all_alike(MPI_Comm comm, int count) {
    int size, rank;
    MPI_Comm_size(comm, &size);
    MPI_Comm_rank(comm, &rank);
    int *own = malloc(((size_t)count + 1) * sizeof *own), *all = malloc(((size_t)(count * size) + 1) * sizeof *all);
    for (int at = 0; at < count; at++) own[at] = of(rank, at);
    all[count * size] = 77;
    CHECK(MPI_Allgather(own, count, MPI_INT, all, count, MPI_INT, comm) == MPI_SUCCESS);
    for (int at = 0; at < count * size; at++) CHECK(all[at] == of(at / count, at % count));
    CHECK(all[count * size] == 77);
    for (int at = 0; at < count * size; at++)
        if (at / count != rank) all[at] = 0;
    CHECK(MPI_Allgather(MPI_IN_PLACE, 0, MPI_DATATYPE_NULL, all, count, MPI_INT, comm) == MPI_SUCCESS);
    for (int at = 0; at < count * size; at++) CHECK(all[at] == of(at / count, at % count));
    free(own);
    free(all);
}

/* Member j hands in j items, or none; they stand apart, the last one first. */
static void each_its_own(void) {
    enum { MOST = 8, ROOM = MOST * (MOST + 1) };
    int counts[MOST], from[MOST], own[MOST], all[ROOM];
    for (int member = 0; member < test_size; member++) {
        counts[member] = member == 1 ? 0 : member + 1;
        from[member] = (test_size - 1 - member) * (MOST + 1);
    }
    memset(all, 0, sizeof all);
    for (int at = 0; at < counts[test_rank]; at++) own[at] = of(test_rank, at);
    CHECK(MPI_Allgatherv(own, counts[test_rank], MPI_INT, all, counts, from, MPI_INT, MPI_COMM_WORLD) == MPI_SUCCESS);
    for (int member = 0; member < test_size; member++)
        for (int at = 0; at <= MOST; at++) CHECK(all[from[member] + at] == (at < counts[member] ? of(member, at) : 0));
}

/* What is sent as a column comes as a row. */
static void other_layouts(void) {
    int columns[3][2] = {{of(test_rank, 0), -1}, {of(test_rank, 1), -1}, {of(test_rank, 2), -1}}, all[8 * 3];
    MPI_Datatype column;
    MPI_Type_vector(3, 1, 2, MPI_INT, &column);
    MPI_Type_commit(&column);
    CHECK(MPI_Allgather(columns, 1, column, all, 3, MPI_INT, MPI_COMM_WORLD) == MPI_SUCCESS);
    for (int at = 0; at < 3 * test_size; at++) CHECK(all[at] == of(at / 3, at % 3));
    MPI_Type_free(&column);
}

int main(int argc, char **argv) {
    MPI_Comm part;
    test_begin(&argc, &argv);
    all_alike(MPI_COMM_WORLD, 1);
    all_alike(MPI_COMM_WORLD, 1000);
    all_alike(MPI_COMM_WORLD, 40000);
    all_alike(MPI_COMM_SELF, 5);
    MPI_Comm_split(MPI_COMM_WORLD, test_rank % 2, -test_rank, &part);
    all_alike(part, 3);
    all_alike(MPI_COMM_WORLD, 3);
    MPI_Comm_free(&part);
    each_its_own();
    other_layouts();
    return test_end();
}
