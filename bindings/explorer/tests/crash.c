/* Faulty: rank 1 writes where nothing is, and rank 2 ends without MPI_Finalize. */
#include <mpi.h>
#include <stdlib.h>
int main(int n, char **v) {
    int me;
    MPI_Init(&n, &v);
    MPI_Comm_rank(MPI_COMM_WORLD, &me);
    if (me == 1) *(volatile int *)0 = 1;
    if (me == 2) exit(3);
    MPI_Barrier(MPI_COMM_WORLD);
    MPI_Finalize();
}
