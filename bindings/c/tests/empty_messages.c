/* A message of no elements fits a receive of any type (MPI 3.1, 3.3.1); so do collectives of nothing (5). */
#include "test.h"

static const struct named_type types[] = {INTEGER_TYPES, OTHER_TYPES};
enum { TYPES = sizeof types / sizeof *types };

static void check_messages(void) {
    for (int i = 0; i < TYPES; i++) {
        MPI_Datatype own = types[i].type, other = types[(i + 7) % TYPES].type;
        if (test_rank == 0) MPI_Send(NULL, 0, own, 1, i, MPI_COMM_WORLD);
        if (test_rank != 1) continue;
        unsigned char room[16];
        int count = -1;
        MPI_Status status;
        memset(room, 0x33, sizeof room);
        CHECK(MPI_Recv(room, 1, other, 0, i, MPI_COMM_WORLD, &status) == MPI_SUCCESS);
        MPI_Get_count(&status, other, &count);
        CHECK(count == 0 && is_all(room, sizeof room, 0x33));
        CHECK(status.MPI_SOURCE == 0 && status.MPI_TAG == i);
    }
}

/* Requests that end with nothing, one at a time and in a list. */
static void check_requests(void) {
    MPI_Request requests[3];
    MPI_Status statuses[3];
    double room[3] = {1, 2, 3};
    if (test_rank == 0)
        for (int i = 0; i < 3; i++) MPI_Send(NULL, 0, MPI_CHAR, 1, 40, MPI_COMM_WORLD);
    if (test_rank != 1) return;
    for (int i = 0; i < 3; i++) MPI_Irecv(&room[i], 1, MPI_DOUBLE, 0, 40, MPI_COMM_WORLD, &requests[i]);
    CHECK(MPI_Wait(&requests[0], &statuses[0]) == MPI_SUCCESS);
    CHECK(MPI_Waitall(3, requests, statuses) == MPI_SUCCESS);
    CHECK(room[0] == 1 && room[1] == 2 && room[2] == 3);
}

/* Types of no data: any number of their items is nothing. */
static void check_empty_type(void) {
    MPI_Datatype nothing;
    int count = -1;
    MPI_Status status;
    MPI_Type_contiguous(0, MPI_DOUBLE, &nothing);
    MPI_Type_commit(&nothing);
    if (test_rank == 0) MPI_Send(NULL, 5, nothing, 1, 50, MPI_COMM_WORLD);
    if (test_rank == 1) {
        CHECK(MPI_Recv(NULL, 5, nothing, 0, 50, MPI_COMM_WORLD, &status) == MPI_SUCCESS);
        MPI_Get_count(&status, MPI_INT, &count);
        CHECK(count == 0);
    }
    MPI_Type_free(&nothing);
}

/* Collectives of no elements, with other types at other members where the standard lets them differ. */
static void check_collectives(void) {
    MPI_Datatype own = types[test_rank % TYPES].type;
    int one = 7;
    CHECK(MPI_Bcast(NULL, 0, own, 0, MPI_COMM_WORLD) == MPI_SUCCESS);
    CHECK(MPI_Gather(NULL, 0, own, &one, 0, MPI_DOUBLE, test_size - 1, MPI_COMM_WORLD) == MPI_SUCCESS);
    CHECK(MPI_Gather(test_rank == 1 ? MPI_IN_PLACE : NULL, 0, own, NULL, 0, own, 1, MPI_COMM_WORLD) == MPI_SUCCESS);
    CHECK(MPI_Scatter(&one, 0, MPI_CHAR, NULL, 0, own, 0, MPI_COMM_WORLD) == MPI_SUCCESS);
    CHECK(MPI_Reduce(NULL, NULL, 0, MPI_INT, MPI_SUM, 0, MPI_COMM_WORLD) == MPI_SUCCESS);
    CHECK(MPI_Allreduce(NULL, NULL, 0, MPI_DOUBLE, MPI_MAX, MPI_COMM_WORLD) == MPI_SUCCESS);
    CHECK(one == 7);
}

int main(int argc, char **argv) {
    test_begin(&argc, &argv);
    return_errors();
    check_messages();
    check_requests();
    check_empty_type();
    check_collectives();
    return test_end();
}
