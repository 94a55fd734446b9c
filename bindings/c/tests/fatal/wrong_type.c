/* Receives a message as another type. */
#include <mpi.h>

int main(int argc, char **argv) {
    int sent[3] = {1, 2, 3};
    float row[3];
    MPI_Init(&argc, &argv);
    MPI_Send(sent, 3, MPI_INT, 0, 5, MPI_COMM_WORLD);
    MPI_Recv(row, 3, MPI_FLOAT, 0, 5, MPI_COMM_WORLD, MPI_STATUS_IGNORE);
    MPI_Finalize();
    return 0;
}
