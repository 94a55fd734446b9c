/* Persistent collectives (MPI 4.0, 6.13): begun again and again, one by one or all at once. */
#include "one_of_each.h"

static void make_first(MPI_Comm comm, int root, MPI_Request *list) {
    MPI_Barrier_init(comm, MPI_INFO_NULL, list++);
    MPI_Bcast_init(given[1], COUNT, MPI_INT, root, comm, MPI_INFO_NULL, list++);
    MPI_Gather_init(given[2], COUNT, MPI_INT, got[2], COUNT, MPI_INT, root, comm, MPI_INFO_NULL, list++);
    MPI_Gatherv_init(given[3], COUNT, MPI_INT, got[3], counts, places, MPI_INT, root, comm, MPI_INFO_NULL, list++);
    MPI_Scatter_init(given[4], COUNT, MPI_INT, got[4], COUNT, MPI_INT, root, comm, MPI_INFO_NULL, list++);
    MPI_Scatterv_init(given[5], counts, places, MPI_INT, got[5], COUNT, MPI_INT, root, comm, MPI_INFO_NULL, list++);
    MPI_Allgather_init(given[6], COUNT, MPI_INT, got[6], COUNT, MPI_INT, comm, MPI_INFO_NULL, list++);
    MPI_Allgatherv_init(given[7], COUNT, MPI_INT, got[7], counts, places, MPI_INT, comm, MPI_INFO_NULL, list++);
    MPI_Alltoall_init(given[8], COUNT, MPI_INT, got[8], COUNT, MPI_INT, comm, MPI_INFO_NULL, list);
}

static void make_others(MPI_Comm comm, int root, MPI_Request *list) {
    MPI_Alltoallv_init(given[9], counts, places, MPI_INT, got[9], counts, places, MPI_INT, comm, MPI_INFO_NULL, list++);
    MPI_Alltoallw_init(given[10], counts, bytes, types, got[10], counts, bytes, types, comm, MPI_INFO_NULL, list++);
    MPI_Reduce_init(given[11], got[11], COUNT, MPI_INT, MPI_SUM, root, comm, MPI_INFO_NULL, list++);
    MPI_Allreduce_init(given[12], got[12], COUNT, MPI_INT, MPI_SUM, comm, MPI_INFO_NULL, list++);
    MPI_Reduce_scatter_init(given[13], got[13], counts, MPI_INT, MPI_SUM, comm, MPI_INFO_NULL, list++);
    MPI_Reduce_scatter_block_init(given[14], got[14], COUNT, MPI_INT, MPI_SUM, comm, MPI_INFO_NULL, list++);
    MPI_Scan_init(given[15], got[15], COUNT, MPI_INT, MPI_SUM, comm, MPI_INFO_NULL, list++);
    MPI_Exscan_init(given[16], got[16], COUNT, MPI_INT, MPI_SUM, comm, MPI_INFO_NULL, list);
}

static void check_rooted(int root) {
    for (int at = 0; at < COUNT; at++) CHECK(given[1][at] == of(root, at));
    for (int kind = 2; kind <= 3 && test_rank == root; kind++)
        for (int at = 0; at < COUNT * test_size; at++) CHECK(got[kind][at] == of(at / COUNT, at % COUNT));
    for (int kind = 4; kind <= 5; kind++)
        for (int at = 0; at < COUNT; at++) CHECK(got[kind][at] == of(root, COUNT * test_rank + at));
    for (int at = 0; at < COUNT && test_rank == root; at++) CHECK(got[11][at] == sum_to(test_size - 1, at));
}

static void check_others(void) {
    for (int at = 0; at < COUNT * test_size; at++) {
        const int from = at / COUNT, place = at % COUNT;
        CHECK(got[6][at] == of(from, place) && got[7][at] == of(from, place));
        for (int kind = 8; kind <= 10; kind++) CHECK(got[kind][at] == of(from, COUNT * test_rank + place));
    }
    for (int at = 0; at < COUNT; at++) {
        CHECK(got[12][at] == sum_to(test_size - 1, at));
        CHECK(got[13][at] == sum_to(test_size - 1, COUNT * test_rank + at));
        CHECK(got[14][at] == sum_to(test_size - 1, COUNT * test_rank + at));
        CHECK(got[15][at] == sum_to(test_rank, at));
        CHECK(test_rank == 0 || got[16][at] == sum_to(test_rank - 1, at));
    }
}

int main(int argc, char **argv) {
    MPI_Request list[KINDS];
    test_begin(&argc, &argv);
    const int root = test_size - 1;
    fill_all();
    make_first(MPI_COMM_WORLD, root, list);
    make_others(MPI_COMM_WORLD, root, list + 9);
    for (round_now = 1; round_now <= 4; round_now++) {
        fill_all();
        if (round_now % 2 == 0) MPI_Startall(KINDS, list);
        for (int kind = 0; kind < KINDS; kind++) {
            if (round_now % 2 != 0) MPI_Start(&list[kind]);
            if (round_now == 3) MPI_Wait(&list[kind], MPI_STATUS_IGNORE);
        }
        MPI_Waitall(KINDS, list, MPI_STATUSES_IGNORE);
        check_rooted(root);
        check_others();
    }
    for (int kind = 0; kind < KINDS; kind++) {
        CHECK(list[kind] != MPI_REQUEST_NULL);
        MPI_Request_free(&list[kind]);
    }
    return test_end();
}
