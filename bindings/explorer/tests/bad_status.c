/* Faulty: rank 1 misses a file, says so and ends with status 1; with a word all ranks call behind MPI_Finalize. */
#include <mpi.h>
#include <stdio.h>
int main(int n, char **v) {
    int me;
    MPI_Init(&n, &v);
    MPI_Comm_rank(MPI_COMM_WORLD, &me);
    if (me == 1) fputs("there is no input.txt\n", stderr);
    MPI_Finalize();
    if (n > 1) MPI_Barrier(MPI_COMM_WORLD);
    return me == 1;
}
