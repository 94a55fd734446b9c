/* Sends to a rank that isn't there. */
#include <mpi.h>

int main(int argc, char **argv) {
    int number = 1;
    MPI_Init(&argc, &argv);
    MPI_Send(&number, 1, MPI_INT, 7, 0, MPI_COMM_WORLD);
    MPI_Finalize();
    return 0;
}
