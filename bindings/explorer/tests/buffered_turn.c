/* Faulty: rank 2 serves whoever comes, and takes it for sure that rank 1 is the first. Rank 0 is, where its row to rank
 * 1 is buffered. A word behind the program has rank 0 begin its row without waiting, and wait for it before it asks. */
#include <mpi.h>

static double row[250];

int main(int n, char **v) {
    int me, number = 0;
    MPI_Status came;
    MPI_Request sent;
    MPI_Init(&n, &v);
    MPI_Comm_rank(MPI_COMM_WORLD, &me);
    if (me == 0) {
        if (n == 1) MPI_Send(row, 250, MPI_DOUBLE, 1, 1, MPI_COMM_WORLD);
        else MPI_Isend(row, 250, MPI_DOUBLE, 1, 1, MPI_COMM_WORLD, &sent), MPI_Wait(&sent, MPI_STATUS_IGNORE);
        MPI_Send(&me, 1, MPI_INT, 2, 2, MPI_COMM_WORLD);
        MPI_Recv(&number, 1, MPI_INT, 2, 3, MPI_COMM_WORLD, MPI_STATUS_IGNORE);
    } else if (me == 1) {
        MPI_Send(&me, 1, MPI_INT, 2, 2, MPI_COMM_WORLD);
        MPI_Recv(&number, 1, MPI_INT, 2, 3, MPI_COMM_WORLD, MPI_STATUS_IGNORE);
        MPI_Recv(row, 250, MPI_DOUBLE, 0, 1, MPI_COMM_WORLD, MPI_STATUS_IGNORE);
    } else {
        for (int i = 0; i < 2; i++) {
            MPI_Recv(&number, 1, MPI_INT, MPI_ANY_SOURCE, 2, MPI_COMM_WORLD, &came);
            if (i == 0 && came.MPI_SOURCE != 1) MPI_Abort(MPI_COMM_WORLD, 3);
            MPI_Send(&number, 1, MPI_INT, came.MPI_SOURCE, 3, MPI_COMM_WORLD);
        }
    }
    MPI_Finalize();
}
