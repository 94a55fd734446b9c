/* A receive that waits can be cancelled; one that has its message can't (MPI 3.1, 3.8.4). */
#include "test.h"

int main(int argc, char **argv) {
    test_begin(&argc, &argv);
    MPI_Request request, second;
    MPI_Status status;
    int got = 7, other = 8, cancelled = 0;
    if (test_rank == 0) {
        /* Nobody sends with this tag. */
        MPI_Irecv(&got, 1, MPI_INT, MPI_ANY_SOURCE, 9, MPI_COMM_WORLD, &request);
        MPI_Cancel(&request);
        MPI_Wait(&request, &status);
        MPI_Test_cancelled(&status, &cancelled);
        CHECK(cancelled && got == 7 && request == MPI_REQUEST_NULL);
        /* What was cancelled takes no message: the second receive has it. */
        MPI_Irecv(&got, 1, MPI_INT, 1, 1, MPI_COMM_WORLD, &request);
        MPI_Irecv(&other, 1, MPI_INT, 1, 1, MPI_COMM_WORLD, &second);
        MPI_Cancel(&request);
        MPI_Wait(&request, &status);
        MPI_Test_cancelled(&status, &cancelled);
        CHECK(cancelled);
        MPI_Send(&got, 1, MPI_INT, 1, 2, MPI_COMM_WORLD);
        MPI_Wait(&second, &status);
        MPI_Test_cancelled(&status, &cancelled);
        CHECK(!cancelled && got == 7 && other == 1);
        /* Messages of one sender are in order: behind the second one the first has been matched. */
        MPI_Irecv(&got, 1, MPI_INT, 1, 3, MPI_COMM_WORLD, &request);
        MPI_Recv(&other, 1, MPI_INT, 1, 4, MPI_COMM_WORLD, MPI_STATUS_IGNORE);
        MPI_Cancel(&request);
        MPI_Wait(&request, &status);
        MPI_Test_cancelled(&status, &cancelled);
        CHECK(!cancelled && got == 1 && status.MPI_TAG == 3);
    } else if (test_rank == 1) {
        MPI_Recv(&got, 1, MPI_INT, 0, 2, MPI_COMM_WORLD, MPI_STATUS_IGNORE);
        for (int tag = 1; tag <= 4; tag++)
            if (tag != 2) MPI_Send(&test_rank, 1, MPI_INT, 0, tag, MPI_COMM_WORLD);
    }
    return test_end();
}
