/* The same buffer, but each message is known to have been received before the next one: by an answer, by a broadcast, by
 * a scan, and by a barrier. */
#include <mpi.h>
#include <stdlib.h>
int main(int argc, char **argv) {
    int me, number = 7, sum, size = MPI_BSEND_OVERHEAD + sizeof number;
    void *buffer = malloc((size_t)size);
    MPI_Init(&argc, &argv);
    MPI_Comm_rank(MPI_COMM_WORLD, &me);
    if (me == 1) MPI_Buffer_attach(buffer, size);
    for (int turn = 0; turn < 5; turn++) {
        if (me == 1) MPI_Bsend(&number, 1, MPI_INT, 0, 0, MPI_COMM_WORLD);
        if (me == 0) MPI_Recv(&number, 1, MPI_INT, MPI_ANY_SOURCE, 0, MPI_COMM_WORLD, MPI_STATUS_IGNORE);
        if (turn == 0 && me == 0) MPI_Send(&number, 1, MPI_INT, 1, 1, MPI_COMM_WORLD);
        if (turn == 0 && me == 1) MPI_Recv(&number, 1, MPI_INT, 0, 1, MPI_COMM_WORLD, MPI_STATUS_IGNORE);
        if (turn == 1) MPI_Bcast(&number, 1, MPI_INT, 0, MPI_COMM_WORLD);
        if (turn == 2) MPI_Scan(&number, &sum, 1, MPI_INT, MPI_SUM, MPI_COMM_WORLD);
        if (turn == 3) MPI_Barrier(MPI_COMM_WORLD);
    }
    if (me == 1) MPI_Buffer_detach(&buffer, &size);
    free(buffer);
    MPI_Finalize();
}
