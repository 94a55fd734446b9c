/* Rank 1 never begins the barrier for which rank 0 waits (or, with an argument, asks for ever). */
#include <mpi.h>
int main(int argc, char **argv) {
    int me, flag = 0;
    MPI_Request request;
    MPI_Init(&argc, &argv);
    MPI_Comm_rank(MPI_COMM_WORLD, &me);
    if (me != 1) {
        MPI_Ibarrier(MPI_COMM_WORLD, &request);
        while (argc > 1 && !flag) MPI_Test(&request, &flag, MPI_STATUS_IGNORE);
        MPI_Wait(&request, MPI_STATUS_IGNORE);
    }
    MPI_Finalize();
}
