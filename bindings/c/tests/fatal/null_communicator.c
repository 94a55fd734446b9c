/* Enters a barrier of no communicator. */
#include <mpi.h>

int main(int argc, char **argv) {
    MPI_Init(&argc, &argv);
    MPI_Barrier(MPI_COMM_NULL);
    MPI_Finalize();
    return 0;
}
