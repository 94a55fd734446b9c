/* What is left undone at MPI_Finalize, of two ranks: receives and two sends that no call ends, messages that nobody
 * receives. Of a persistent request that isn't begun nothing is left. */
#include <mpi.h>

int main(int argc, char **argv) {
    int rank, row[1000] = {0}, came[2] = {0};
    MPI_Request requests[3], persistent[2];
    MPI_Comm part;
    MPI_Init(&argc, &argv);
    MPI_Comm_rank(MPI_COMM_WORLD, &rank);
    MPI_Comm_split(MPI_COMM_WORLD, 0, -rank, &part);
    MPI_Comm_set_name(part, "part");
    if (rank == 0) {
        MPI_Isend(row, 10, MPI_INT, 1, 1, MPI_COMM_WORLD, &requests[0]);
        MPI_Isend(row, 1000, MPI_INT, 0, 2, part, &requests[1]);
        MPI_Irecv(&came[0], 1, MPI_INT, MPI_ANY_SOURCE, 3, part, &requests[2]);
        for (int i = 0; i < 2; i++) MPI_Recv_init(&came[1], 1, MPI_INT, 1, 6, MPI_COMM_WORLD, &persistent[i]);
        MPI_Start(&persistent[0]);
        for (int i = 0; i < 12; i++) MPI_Send(row, 1, MPI_CHAR, 0, 4, MPI_COMM_SELF);
    }
    MPI_Finalize();
    return 0;
}
