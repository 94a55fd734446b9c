/* MPI_Alltoall, v and w (MPI 3.1, 5.8): block j of a member's result is what member j hands in for it. */
#include "test.h"

enum { MOST = 8, GAP = 3 };

/* What member `from` hands in for member `to` at a place. */
static int of(int from, int to, int at) { return (int)mixed((unsigned)from, (unsigned)to, (unsigned)at); }

static void all_alike(MPI_Comm comm, int count) {
    int size, rank;
    MPI_Comm_size(comm, &size);
    MPI_Comm_rank(comm, &rank);
    const size_t items = (size_t)count * (size_t)size;
    int *given = malloc((items + 1) * sizeof *given), *got = malloc((items + 1) * sizeof *got);
    for (size_t at = 0; at < items; at++) given[at] = of(rank, (int)at / count, (int)at % count);
    got[items] = 77;
    CHECK(MPI_Alltoall(given, count, MPI_INT, got, count, MPI_INT, comm) == MPI_SUCCESS);
    for (size_t at = 0; at < items; at++) CHECK(got[at] == of((int)at / count, rank, (int)at % count));
    CHECK(got[items] == 77);
    CHECK(MPI_Alltoall(MPI_IN_PLACE, 0, MPI_DATATYPE_NULL, given, count, MPI_INT, comm) == MPI_SUCCESS);
    CHECK(memcmp(given, got, items * sizeof *given) == 0);
    free(given);
    free(got);
}

/* How many items go from one to another: none to itself from 2 on. */
static int count_of(int from, int to) { return from == to && from > 1 ? 0 : (3 * from + 5 * to) % 7; }

/* Blocks stand apart, the last one first. */
static int place_of(int member) { return (test_size - 1 - member) * (7 + GAP); }

static void check_all(const int *got) {
    for (int member = 0; member < test_size; member++)
        for (int at = 0; at < 7 + GAP; at++)
            CHECK(got[place_of(member) + at] == (at < count_of(member, test_rank) ? of(member, test_rank, at) : -1));
}

static void each_its_own(void) {
    int counts[MOST], places[MOST], wanted[MOST], given[MOST * (7 + GAP)], got[MOST * (7 + GAP)];
    memset(got, 255, sizeof got);
    for (int member = 0; member < test_size; member++) {
        counts[member] = count_of(test_rank, member);
        wanted[member] = count_of(member, test_rank);
        places[member] = place_of(member);
        for (int at = 0; at < counts[member]; at++) given[places[member] + at] = of(test_rank, member, at);
    }
    CHECK(MPI_Alltoallv(given, counts, places, MPI_INT, got, wanted, places, MPI_INT, MPI_COMM_WORLD) == MPI_SUCCESS);
    check_all(got);
}

/* The same in bytes and with types of their own: a block that comes from an even rank comes as a vector of one. */
static void types_of_their_own(void) {
    int counts[MOST], bytes[MOST], wanted[MOST], given[MOST * (7 + GAP)], got[MOST * (7 + GAP)];
    MPI_Datatype sent[MOST], received[MOST], one;
    MPI_Type_contiguous(1, MPI_INT, &one);
    MPI_Type_commit(&one);
    memset(got, 255, sizeof got);
    for (int member = 0; member < test_size; member++) {
        counts[member] = count_of(test_rank, member);
        wanted[member] = count_of(member, test_rank);
        bytes[member] = place_of(member) * (int)sizeof(int);
        sent[member] = MPI_INT;
        received[member] = member % 2 == 0 ? one : MPI_INT;
        for (int at = 0; at < counts[member]; at++) given[place_of(member) + at] = of(test_rank, member, at);
    }
    CHECK(MPI_Alltoallw(given, counts, bytes, sent, got, wanted, bytes, received, MPI_COMM_WORLD) == MPI_SUCCESS);
    check_all(got);
    MPI_Type_free(&one);
}

/* In place what goes to a member and what comes from it has one length. */
static void in_place(void) {
    int counts[MOST], places[MOST], all[MOST * (7 + GAP)];
    memset(all, 255, sizeof all);
    for (int member = 0; member < test_size; member++) {
        counts[member] = (test_rank + member) % 5;
        places[member] = place_of(member);
        for (int at = 0; at < counts[member]; at++) all[places[member] + at] = of(test_rank, member, at);
    }
    CHECK(MPI_Alltoallv(MPI_IN_PLACE, NULL, NULL, MPI_DATATYPE_NULL, all, counts, places, MPI_INT, MPI_COMM_WORLD) ==
          MPI_SUCCESS);
    for (int member = 0; member < test_size; member++)
        for (int at = 0; at < 7 + GAP; at++)
            CHECK(all[place_of(member) + at] == (at < counts[member] ? of(member, test_rank, at) : -1));
}

int main(int argc, char **argv) {
    MPI_Comm part;
    test_begin(&argc, &argv);
    all_alike(MPI_COMM_WORLD, 1);
    all_alike(MPI_COMM_WORLD, 2000);
    all_alike(MPI_COMM_WORLD, 30000);
    all_alike(MPI_COMM_SELF, 4);
    MPI_Comm_split(MPI_COMM_WORLD, test_rank % 2, -test_rank, &part);
    all_alike(part, 3);
    MPI_Comm_free(&part);
    each_its_own();
    types_of_their_own();
    in_place();
    return test_end();
}
