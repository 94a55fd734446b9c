/* A synchronous send ends only once its receive has begun; a standard one of few bytes needs none (MPI 3.1, 3.4). */
#include "test.h"

static bool is_finished(MPI_Request *request) {
    int flag = 0;
    MPI_Test(request, &flag, MPI_STATUS_IGNORE);
    return flag != 0;
}

int main(int argc, char **argv) {
    test_begin(&argc, &argv);
    int number = 17, go = 0;
    MPI_Request request = MPI_REQUEST_NULL;
    if (test_rank == 0) {
        MPI_Issend(&number, 1, MPI_INT, 1, 1, MPI_COMM_WORLD, &request);
        double until = MPI_Wtime() + 0.1;
        while (MPI_Wtime() < until) CHECK(!is_finished(&request));
        MPI_Send(&go, 1, MPI_INT, 1, 2, MPI_COMM_WORLD);
        MPI_Wait(&request, MPI_STATUS_IGNORE);
    } else if (test_rank == 1) {
        MPI_Recv(&go, 1, MPI_INT, 0, 2, MPI_COMM_WORLD, MPI_STATUS_IGNORE);
        MPI_Recv(&number, 1, MPI_INT, 0, 1, MPI_COMM_WORLD, MPI_STATUS_IGNORE);
        CHECK(number == 17);
    }
    return test_end();
}
