/* Three ranks: rank 0 prints the number that rank 1 sends. The test sends it others before, from elsewhere. */
#include <mpi.h>
#include <stdio.h>

int main(int argc, char **argv) {
    int rank, number = 7;
    MPI_Init(&argc, &argv);
    MPI_Comm_rank(MPI_COMM_WORLD, &rank);
    if (rank == 1) MPI_Send(&number, 1, MPI_INT, 0, 0, MPI_COMM_WORLD);
    if (rank == 0) {
        MPI_Recv(&number, 1, MPI_INT, 1, 0, MPI_COMM_WORLD, MPI_STATUS_IGNORE);
        printf("%d\n", number);
        fflush(stdout);
    }
    MPI_Finalize();
    return 0;
}
