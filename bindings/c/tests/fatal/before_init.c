/* Asks something before MPI is initialised. */
#include <mpi.h>

int main(int argc, char **argv) {
    int size;
    (void)argc;
    (void)argv;
    MPI_Comm_size(MPI_COMM_WORLD, &size);
    return 0;
}
