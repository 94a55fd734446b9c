/* Receives a message that is longer than its buffer. */
#include <mpi.h>

int main(int argc, char **argv) {
    int row[3] = {1, 2, 3}, into[2];
    MPI_Request request;
    MPI_Init(&argc, &argv);
    MPI_Isend(row, 3, MPI_INT, 0, 3, MPI_COMM_WORLD, &request);
    MPI_Recv(into, 2, MPI_INT, 0, 3, MPI_COMM_WORLD, MPI_STATUS_IGNORE);
    MPI_Finalize();
    return 0;
}
