/* Calls of several threads, one behind the other (MPI 3.1, 12.4.3, MPI_THREAD_SERIALIZED). */
#include "test.h"

#include <threads.h>

enum { ROUNDS = 20 };

/* What a thread that isn't the first one asks, sends and receives. */
static int exchange(void *which) {
    int round = *(int *)which, got = -1, is_main = 1, level = -1;
    MPI_Request request;
    MPI_Is_thread_main(&is_main);
    MPI_Query_thread(&level);
    CHECK(!is_main && level == MPI_THREAD_SERIALIZED);
    MPI_Irecv(&got, 1, MPI_INT, 1 - test_rank, round, MPI_COMM_WORLD, &request);
    MPI_Send(&round, 1, MPI_INT, 1 - test_rank, round, MPI_COMM_WORLD);
    MPI_Wait(&request, MPI_STATUS_IGNORE);
    CHECK(got == round);
    return 0;
}

int main(int argc, char **argv) {
    int level = -1, sum = 0;
    MPI_Init_thread(&argc, &argv, MPI_THREAD_SERIALIZED, &level);
    MPI_Comm_rank(MPI_COMM_WORLD, &test_rank);
    CHECK(level == MPI_THREAD_SERIALIZED);
    for (int round = 0; round < ROUNDS; round++) {
        thrd_t other;
        if (thrd_create(&other, exchange, &round) != thrd_success) return 1;
        thrd_join(other, NULL);
        MPI_Allreduce(&round, &sum, 1, MPI_INT, MPI_SUM, MPI_COMM_WORLD);
        CHECK(sum == 2 * round);
    }
    return test_end();
}
