/* Faulty: rank 1 computes for ever. */
#include <mpi.h>
int main(int n, char **v) {
    int me;
    MPI_Init(&n, &v);
    MPI_Comm_rank(MPI_COMM_WORLD, &me);
    for (volatile int i = 0; me == 1; i = 0) {}
    MPI_Finalize();
}
