/* MPI_Gatherv and MPI_Scatterv (MPI 3.1, 5.5 and 5.6). */
#include "test.h"

enum { MOST = 8, ROOM = 12 };

static int of(int member, int at) { return (int)mixed((unsigned)member, (unsigned)at, 5); }
static int count_of(int member) { return member == 1 ? 0 : member + 2; }
static int place_of(int member) { return (test_size - 1 - member) * ROOM; }

static void fill_lists(int counts[MOST], int places[MOST]) {
    for (int member = 0; member < test_size; member++) {
        counts[member] = count_of(member);
        places[member] = place_of(member);
    }
}

static void check_all(const int *all, int without) {
    for (int member = 0; member < test_size; member++)
        for (int at = 0; at < ROOM; at++)
            CHECK(member == without || all[place_of(member) + at] == (at < count_of(member) ? of(member, at) : -1));
}

static void gather_at(int root, bool is_in_place) {
    int counts[MOST], places[MOST], own[ROOM], all[MOST * ROOM];
    fill_lists(counts, places);
    memset(all, 255, sizeof all);
    for (int at = 0; at < count_of(test_rank); at++) own[at] = of(test_rank, at);
    const bool is_root = test_rank == root;
    if (is_root && is_in_place) memcpy(all + place_of(root), own, (size_t)count_of(root) * sizeof *own);
    CHECK(MPI_Gatherv(is_root && is_in_place ? MPI_IN_PLACE : own, count_of(test_rank), MPI_INT, is_root ? all : NULL,
                      is_root ? counts : NULL, is_root ? places : NULL, is_root ? MPI_INT : MPI_DATATYPE_NULL, root,
                      MPI_COMM_WORLD) == MPI_SUCCESS);
    if (is_root) check_all(all, -1);
}

static void scatter_from(int root, bool is_in_place) {
    int counts[MOST], places[MOST], own[ROOM + 1], all[MOST * ROOM];
    fill_lists(counts, places);
    memset(own, 255, sizeof own);
    for (int member = 0; member < test_size; member++)
        for (int at = 0; at < count_of(member); at++) all[place_of(member) + at] = of(member, at);
    const bool is_root = test_rank == root;
    CHECK(MPI_Scatterv(is_root ? all : NULL, is_root ? counts : NULL, is_root ? places : NULL,
                       is_root ? MPI_INT : MPI_DATATYPE_NULL, is_root && is_in_place ? MPI_IN_PLACE : own,
                       count_of(test_rank), MPI_INT, root, MPI_COMM_WORLD) == MPI_SUCCESS);
    if (is_root && is_in_place) return;
    for (int at = 0; at <= ROOM; at++) CHECK(own[at] == (at < count_of(test_rank) ? of(test_rank, at) : -1));
}

/* What comes from a row goes into a column. */
static void other_layouts(void) {
    int counts[MOST], places[MOST], row[3], all[MOST * 6];
    MPI_Datatype column;
    MPI_Type_vector(3, 1, 2, MPI_INT, &column);
    MPI_Type_commit(&column);
    memset(all, 255, sizeof all);
    for (int at = 0; at < 3; at++) row[at] = of(test_rank, at);
    for (int member = 0; member < test_size; member++) counts[member] = 1, places[member] = member;
    CHECK(MPI_Gatherv(row, 3, MPI_INT, all, counts, places, column, 0, MPI_COMM_WORLD) == MPI_SUCCESS);
    for (int at = 0; test_rank == 0 && at < 5 * test_size; at++)
        CHECK(all[at] == (at % 5 % 2 == 0 ? of(at / 5, at % 5 / 2) : -1));
    MPI_Type_free(&column);
}

int main(int argc, char **argv) {
    test_begin(&argc, &argv);
    for (int root = 0; root < test_size; root++) {
        gather_at(root, false);
        gather_at(root, true);
        scatter_from(root, false);
        scatter_from(root, true);
    }
    other_layouts();
    return test_end();
}
