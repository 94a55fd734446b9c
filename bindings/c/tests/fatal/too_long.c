/* Sends more than a message may have. */
#include <mpi.h>

#include <stdlib.h>

int main(int argc, char **argv) {
    short *row = malloc((size_t)1 << 31);
    MPI_Init(&argc, &argv);
    MPI_Send(row, 1 << 30, MPI_SHORT, 0, 0, MPI_COMM_WORLD);
    MPI_Finalize();
    free(row);
    return 0;
}
