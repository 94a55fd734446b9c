/* Waits for a request that has no address. */
#include <mpi.h>
#include <stddef.h>

int main(int argc, char **argv) {
    MPI_Init(&argc, &argv);
    MPI_Wait(NULL, MPI_STATUS_IGNORE);
    MPI_Finalize();
    return 0;
}
