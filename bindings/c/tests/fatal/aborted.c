/* Ends the job with a code. */
#include <mpi.h>

int main(int argc, char **argv) {
    MPI_Init(&argc, &argv);
    MPI_Abort(MPI_COMM_WORLD, 37);
    return 0;
}
