/* Reduces by an operation that is not defined on the type. */
#include <mpi.h>

int main(int argc, char **argv) {
    double number = 1, all;
    MPI_Init(&argc, &argv);
    MPI_Allreduce(&number, &all, 1, MPI_DOUBLE, MPI_BAND, MPI_COMM_WORLD);
    MPI_Finalize();
    return 0;
}
