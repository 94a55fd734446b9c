/* Faulty: rank 2 asks rank 0 alone for a second note if rank 0's came first. It can only where the row of 2,000 bytes
 * before it is buffered, since rank 1 takes the row once rank 2 has both. */
#include <mpi.h>

static int row[500];

int main(int n, char **v) {
    int me, note = 0;
    MPI_Status came;
    MPI_Init(&n, &v);
    MPI_Comm_rank(MPI_COMM_WORLD, &me);
    if (me == 0) {
        MPI_Send(row, 500, MPI_INT, 1, 1, MPI_COMM_WORLD);
        MPI_Send(&me, 1, MPI_INT, 2, 2, MPI_COMM_WORLD);
    } else if (me == 1) {
        MPI_Recv(&note, 1, MPI_INT, 2, 9, MPI_COMM_WORLD, MPI_STATUS_IGNORE);
        MPI_Recv(row, 500, MPI_INT, 0, 1, MPI_COMM_WORLD, MPI_STATUS_IGNORE);
    } else if (me == 2) {
        MPI_Recv(&note, 1, MPI_INT, MPI_ANY_SOURCE, 2, MPI_COMM_WORLD, &came);
        if (came.MPI_SOURCE == 0) MPI_Recv(&note, 1, MPI_INT, 0, 2, MPI_COMM_WORLD, MPI_STATUS_IGNORE);
        MPI_Send(&me, 1, MPI_INT, 1, 9, MPI_COMM_WORLD);
        MPI_Recv(&note, 1, MPI_INT, MPI_ANY_SOURCE, 2, MPI_COMM_WORLD, MPI_STATUS_IGNORE);
    } else {
        MPI_Send(&me, 1, MPI_INT, 2, 2, MPI_COMM_WORLD);
    }
    MPI_Finalize();
}
