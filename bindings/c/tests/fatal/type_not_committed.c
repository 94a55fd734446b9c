/* Sends items of a type that was not committed. */
#include <mpi.h>

int main(int argc, char **argv) {
    int pair[2] = {1, 2};
    MPI_Datatype type;
    MPI_Init(&argc, &argv);
    MPI_Type_contiguous(2, MPI_INT, &type);
    MPI_Send(pair, 1, type, 0, 0, MPI_COMM_WORLD);
    MPI_Finalize();
    return 0;
}
