/* Faulty: each rank receives from the one before it first, so that all wait in a ring. */
#include <mpi.h>
int main(int n, char **v) {
    int me, size, a = 0;
    MPI_Init(&n, &v);
    MPI_Comm_rank(MPI_COMM_WORLD, &me);
    MPI_Comm_size(MPI_COMM_WORLD, &size);
    MPI_Recv(&a, 1, MPI_INT, (me + size - 1) % size, 0, MPI_COMM_WORLD, MPI_STATUS_IGNORE);
    MPI_Send(&a, 1, MPI_INT, (me + 1) % size, 0, MPI_COMM_WORLD);
    MPI_Finalize();
}
