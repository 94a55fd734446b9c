/* Faulty: rank 0 asks for ever for a message that nobody sends. */
#include <mpi.h>
int main(int n, char **v) {
    int me, there = 0;
    MPI_Init(&n, &v);
    MPI_Comm_rank(MPI_COMM_WORLD, &me);
    while (me == 0 && !there) MPI_Iprobe(1, 0, MPI_COMM_WORLD, &there, MPI_STATUS_IGNORE);
    MPI_Finalize();
}
