/* A type of more bytes than are told. */
#include <mpi.h>

int main(int argc, char **argv) {
    MPI_Datatype row, square, cube;
    MPI_Init(&argc, &argv);
    MPI_Type_contiguous(2147483647, MPI_DOUBLE, &row);
    MPI_Type_contiguous(2147483, row, &square);
    MPI_Type_contiguous(1000, square, &cube);
    MPI_Finalize();
    return 0;
}
