/* Rank 0 sends 400 messages of 1 MiB before any is received: the explorer needs 400 MB for them. */
#include <mpi.h>

static char data[1 << 20];

int main(int argc, char **argv) {
    int me;
    MPI_Init(&argc, &argv);
    MPI_Comm_rank(MPI_COMM_WORLD, &me);
    for (int i = 0; me == 0 && i < 400; i++) {
        MPI_Request request;
        MPI_Isend(data, sizeof data, MPI_CHAR, 1, 0, MPI_COMM_WORLD, &request);
        MPI_Request_free(&request);
    }
    MPI_Barrier(MPI_COMM_WORLD);
    for (int i = 0; me == 1 && i < 400; i++)
        MPI_Recv(data, sizeof data, MPI_CHAR, 0, 0, MPI_COMM_WORLD, MPI_STATUS_IGNORE);
    MPI_Finalize();
    return 0;
}
