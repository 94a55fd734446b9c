/* Receives from any source and with any tag; what the status tells (MPI 3.1, 3.2.4 and 3.2.5). */
#include "test.h"

enum { EACH = 50 };

/* Everybody sends to rank 0, which takes what comes; of each sender they come in order. */
static void check_any(void) {
    if (test_rank != 0) {
        for (int i = 0; i < EACH; i++) {
            int message[2] = {test_rank, i};
            MPI_Send(message, 2, MPI_INT, 0, test_rank * EACH + i, MPI_COMM_WORLD);
        }
        return;
    }
    int *next = calloc((size_t)test_size, sizeof *next);
    for (int i = 0; i < EACH * (test_size - 1); i++) {
        int message[3] = {-1, -1, -1}, count = -1;
        MPI_Status status;
        MPI_Recv(message, 3, MPI_INT, MPI_ANY_SOURCE, MPI_ANY_TAG, MPI_COMM_WORLD, &status);
        MPI_Get_count(&status, MPI_INT, &count);
        CHECK(count == 2);
        CHECK(status.MPI_SOURCE == message[0]);
        CHECK(status.MPI_TAG == message[0] * EACH + message[1]);
        if (message[0] > 0 && message[0] < test_size) CHECK(message[1] == next[message[0]]++);
    }
    free(next);
}

/* A receive by tag takes the later message; one from any source with this tag takes only that. */
static void check_by_tag(void) {
    if (test_rank == 1)
        for (int tag = 1; tag <= 3; tag++) MPI_Send(&tag, 1, MPI_INT, 0, tag, MPI_COMM_WORLD);
    if (test_rank != 0) return;
    const int wanted[] = {2, 3, 1};
    for (int i = 0; i < 3; i++) {
        int got = 0;
        MPI_Status status;
        MPI_Recv(&got, 1, MPI_INT, i == 0 ? 1 : MPI_ANY_SOURCE, wanted[i], MPI_COMM_WORLD, &status);
        CHECK(got == wanted[i] && status.MPI_TAG == wanted[i] && status.MPI_SOURCE == 1);
    }
}

/* The largest tag that every MPI has. */
static void check_large_tag(void) {
    int got = 0;
    MPI_Status status;
    if (test_rank == 1) MPI_Send(&test_rank, 1, MPI_INT, 0, 32767, MPI_COMM_WORLD);
    if (test_rank != 0) return;
    MPI_Recv(&got, 1, MPI_INT, 1, MPI_ANY_TAG, MPI_COMM_WORLD, &status);
    CHECK(got == 1 && status.MPI_TAG == 32767);
}

int main(int argc, char **argv) {
    test_begin(&argc, &argv);
    check_any();
    MPI_Barrier(MPI_COMM_WORLD);
    check_by_tag();
    MPI_Barrier(MPI_COMM_WORLD);
    check_large_tag();
    return test_end();
}
