/* Persistent collectives. Without a word: right, begun in another order at each rank. With "kinds": made in another order
 * at rank 1. With "absent": rank 1 begins one once, rank 0 twice. */
#include <mpi.h>
#include <string.h>

int main(int argc, char **argv) {
    int row = 1, rank, other = 2;
    MPI_Request q[2];
    MPI_Init(&argc, &argv);
    const int kinds = argc > 1 && strcmp(argv[1], "kinds") == 0, absent = argc > 1 && strcmp(argv[1], "absent") == 0;
    MPI_Comm_rank(MPI_COMM_WORLD, &rank);
    if (rank == 1 && kinds) MPI_Barrier_init(MPI_COMM_WORLD, MPI_INFO_NULL, &q[1]);
    MPI_Bcast_init(&row, 1, MPI_INT, 0, MPI_COMM_WORLD, MPI_INFO_NULL, &q[0]);
    if (rank == 0 || !kinds) MPI_Barrier_init(MPI_COMM_WORLD, MPI_INFO_NULL, &q[1]);
    for (int turn = 0; turn < 2; turn++) {
        MPI_Start(&q[rank]);
        if (turn == 0 || rank == 0 || !absent) MPI_Start(&q[1 - rank]);
        MPI_Allreduce(MPI_IN_PLACE, &other, 1, MPI_INT, MPI_SUM, MPI_COMM_WORLD);
        MPI_Waitall(2, q, MPI_STATUSES_IGNORE);
    }
    MPI_Request_free(&q[0]);
    MPI_Request_free(&q[1]);
    MPI_Finalize();
    return 0;
}
