/* Rank 0 prints what is in the buffers of its receives before they are complete, and behind that. */
#include <mpi.h>
#include <stdio.h>
int main(int argc, char **argv) {
    int me, first = 0, second = 0;
    MPI_Request open[2];
    MPI_Message message;
    MPI_Init(&argc, &argv);
    MPI_Comm_rank(MPI_COMM_WORLD, &me);
    if (me == 0) {
        MPI_Irecv(&first, 1, MPI_INT, 1, 1, MPI_COMM_WORLD, &open[0]);
        MPI_Barrier(MPI_COMM_WORLD);
        printf("too early: %d\n", first);
        MPI_Wait(&open[0], MPI_STATUS_IGNORE);
        MPI_Mprobe(1, 2, MPI_COMM_WORLD, &message, MPI_STATUS_IGNORE);
        MPI_Imrecv(&second, 1, MPI_INT, &message, &open[1]);
        printf("too early: %d\n", second);
        MPI_Wait(&open[1], MPI_STATUS_IGNORE);
        printf("%d %d\n", first, second);
    } else {
        first = 5, second = 6;
        MPI_Isend(&first, 1, MPI_INT, 0, 1, MPI_COMM_WORLD, &open[0]);
        MPI_Isend(&second, 1, MPI_INT, 0, 2, MPI_COMM_WORLD, &open[1]);
        MPI_Barrier(MPI_COMM_WORLD);
        MPI_Waitall(2, open, MPI_STATUSES_IGNORE);
    }
    MPI_Finalize();
}
