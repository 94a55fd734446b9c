/* Receives a message as a type of another type, by a request of a list. */
#include <mpi.h>

int main(int argc, char **argv) {
    int sent[3] = {1, 2, 3}, first;
    float row[6];
    MPI_Datatype pair;
    MPI_Request requests[2];
    MPI_Init(&argc, &argv);
    MPI_Type_contiguous(2, MPI_FLOAT, &pair);
    MPI_Type_commit(&pair);
    MPI_Irecv(&first, 1, MPI_INT, 0, 4, MPI_COMM_WORLD, &requests[0]);
    MPI_Irecv(row, 3, pair, 0, 5, MPI_COMM_WORLD, &requests[1]);
    MPI_Send(sent, 3, MPI_INT, 0, 5, MPI_COMM_WORLD);
    MPI_Send(sent, 1, MPI_INT, 0, 4, MPI_COMM_WORLD);
    MPI_Waitall(2, requests, MPI_STATUSES_IGNORE);
    MPI_Finalize();
    return 0;
}
