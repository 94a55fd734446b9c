/* Looks for a message of rank 1, then for one of rank 2; where both looks say no it waits for one that nobody sends. */
#include <mpi.h>

int main(int argc, char **argv) {
    int me, first, second, number = 0;
    MPI_Init(&argc, &argv);
    MPI_Comm_rank(MPI_COMM_WORLD, &me);
    if (me > 0) MPI_Send(&me, 1, MPI_INT, 0, 0, MPI_COMM_WORLD);
    if (me == 0) {
        MPI_Iprobe(1, 0, MPI_COMM_WORLD, &first, MPI_STATUS_IGNORE);
        MPI_Iprobe(2, 0, MPI_COMM_WORLD, &second, MPI_STATUS_IGNORE);
        if (!first && !second) MPI_Recv(&number, 1, MPI_INT, 1, 9, MPI_COMM_WORLD, MPI_STATUS_IGNORE);
        MPI_Recv(&number, 1, MPI_INT, 1, 0, MPI_COMM_WORLD, MPI_STATUS_IGNORE);
        MPI_Recv(&number, 1, MPI_INT, 2, 0, MPI_COMM_WORLD, MPI_STATUS_IGNORE);
    }
    MPI_Finalize();
    return 0;
}
