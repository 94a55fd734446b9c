/* Persistent collectives are the same at all members by the order of the calls that make them; they are begun in any
 * order, another one at each member (MPI 4.0, 6.13). */
#include "test.h"

enum { MOST = 8, MADE = 6, ROUNDS = 20 };
static int from_root[2], sum, least, all[MOST], own;
static MPI_Comm comm;

/* What a member hands in differs from round to round. */
static int of(int member, int round) { return (int)(mixed((unsigned)member, (unsigned)round, 3) % 100000); }

static void make(MPI_Request list[MADE]) {
    MPI_Bcast_init(&from_root[0], 1, MPI_INT, 0, comm, MPI_INFO_NULL, &list[0]);
    MPI_Barrier_init(comm, MPI_INFO_NULL, &list[1]);
    MPI_Bcast_init(&from_root[1], 1, MPI_INT, 0, comm, MPI_INFO_NULL, &list[2]);
    MPI_Allreduce_init(&own, &sum, 1, MPI_INT, MPI_SUM, comm, MPI_INFO_NULL, &list[3]);
    MPI_Allreduce_init(&own, &least, 1, MPI_INT, MPI_MIN, comm, MPI_INFO_NULL, &list[4]);
    MPI_Allgather_init(&own, 1, MPI_INT, all, 1, MPI_INT, comm, MPI_INFO_NULL, &list[5]);
}

static void fill_in(int round) {
    own = of(test_rank, round);
    sum = least = -1;
    for (int k = 0; k < 2; k++) from_root[k] = test_rank == 0 ? of(100 + k, round) : -1;
    for (int member = 0; member < test_size; member++) all[member] = -1;
}

static void check_round(int round) {
    int wanted = 0, wanted_least = of(0, round);
    for (int member = 0; member < test_size; member++) {
        const int its = of(member, round);
        CHECK(all[member] == its);
        wanted += its;
        if (its < wanted_least) wanted_least = its;
    }
    CHECK(sum == wanted && least == wanted_least);
    for (int k = 0; k < 2; k++) CHECK(from_root[k] == of(100 + k, round));
}

/* Each rank begins them in an order of its own, which changes; by MPI_Startall, too; other collectives stand between.
 */
static void any_order(void) {
    MPI_Request list[MADE];
    make(list);
    for (int round = 0; round < ROUNDS; round++) {
        MPI_Request turned[MADE], other;
        int total = -1, step = round % 2 == 0 ? 1 : 5;
        fill_in(round);
        for (int k = 0; k < MADE; k++) turned[k] = list[(k * step + round + test_rank) % MADE];
        if (round % 3 == 0) MPI_Startall(MADE, turned);
        for (int k = 0; k < MADE && round % 3 != 0; k++) {
            MPI_Start(&turned[k]);
            if (k == 2) MPI_Iallreduce(&own, &total, 1, MPI_INT, MPI_SUM, comm, &other);
        }
        MPI_Waitall(MADE, turned, MPI_STATUSES_IGNORE);
        if (round % 3 != 0) MPI_Wait(&other, MPI_STATUS_IGNORE);
        check_round(round);
        CHECK(round % 3 == 0 || total == sum);
    }
    for (int k = 0; k < MADE; k++) MPI_Request_free(&list[k]);
}

/* One of which rank 1 wants another length fails there each time that it is begun, and what is begun beside it doesn't.
 */
static void behind_errors(void) {
    int row[4] = {0}, right = -1;
    MPI_Request wrong, other;
    MPI_Bcast_init(row, test_rank == 1 ? 3 : 2, MPI_INT, 0, comm, MPI_INFO_NULL, &wrong);
    MPI_Bcast_init(&right, 1, MPI_INT, 0, comm, MPI_INFO_NULL, &other);
    for (int round = 0; round < 10; round++) {
        right = test_rank == 0 ? round : -1;
        MPI_Start(test_rank == 0 ? &wrong : &other);
        MPI_Start(test_rank == 0 ? &other : &wrong);
        CHECK(class_of(MPI_Wait(&wrong, MPI_STATUS_IGNORE)) == (test_rank == 1 ? MPI_ERR_COUNT : MPI_SUCCESS));
        CHECK(MPI_Wait(&other, MPI_STATUS_IGNORE) == MPI_SUCCESS && right == round);
    }
    MPI_Request_free(&wrong);
    MPI_Request_free(&other);
}

/* More are made than there are numbers, some of which are freed in another order at each rank; the first one stays. */
static void many(void) {
    enum { KEPT = 40 };
    MPI_Request first, kept[KEPT];
    int value = -1, values[KEPT];
    MPI_Bcast_init(&value, 1, MPI_INT, 0, comm, MPI_INFO_NULL, &first);
    for (int round = 0; round < 420; round++) {
        for (int k = 0; k < KEPT; k++) {
            values[k] = test_rank == 0 ? round + k : -1;
            MPI_Bcast_init(&values[k], 1, MPI_INT, 0, comm, MPI_INFO_NULL, &kept[k]);
        }
        value = test_rank == 0 ? -round : 1;
        if (round % 50 == 49) {
            MPI_Start(&kept[(round + test_rank) % 2]);
            MPI_Start(&first);
            MPI_Start(&kept[(round + test_rank + 1) % 2]);
            MPI_Waitall(2, kept, MPI_STATUSES_IGNORE);
            MPI_Wait(&first, MPI_STATUS_IGNORE);
            CHECK(value == -round && values[0] == round && values[1] == round + 1);
        }
        for (int k = 0; k < KEPT; k++) MPI_Request_free(&kept[(k + 7 * test_rank) % KEPT]);
    }
    MPI_Request_free(&first);
}

int main(int argc, char **argv) {
    int right = 0;
    test_begin(&argc, &argv);
    return_errors();
    MPI_Comm parts[2];
    MPI_Comm_dup(MPI_COMM_WORLD, &parts[0]);
    MPI_Comm_split(MPI_COMM_WORLD, 0, -test_rank, &parts[1]);
    comm = MPI_COMM_WORLD;
    any_order();
    comm = parts[0];
    any_order();
    many();
    if (test_size == 2) behind_errors();
    MPI_Allreduce(&test_rank, &right, 1, MPI_INT, MPI_SUM, parts[1]);
    CHECK(right == test_size * (test_size - 1) / 2);
    MPI_Comm_free(&parts[0]);
    MPI_Comm_free(&parts[1]);
    return test_end();
}
