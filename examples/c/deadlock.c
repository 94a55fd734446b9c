/* A bug: both ranks receive before they send, so each waits for the other for ever. After ten seconds in which nothing
 * moves each rank says where it waits, and the job ends.
 *
 *   ./run -n 2 examples/c/deadlock.c        status 4
 */
#include <mpi.h>
#include <stdio.h>

int main(int argc, char **argv) {
    int rank, mine, other;
    MPI_Init(&argc, &argv);
    MPI_Comm_rank(MPI_COMM_WORLD, &rank);
    mine = rank;
    MPI_Recv(&other, 1, MPI_INT, 1 - rank, 5, MPI_COMM_WORLD, MPI_STATUS_IGNORE);
    MPI_Send(&mine, 1, MPI_INT, 1 - rank, 5, MPI_COMM_WORLD);
    printf("%d and %d\n", mine, other);
    MPI_Finalize();
    return 0;
}
