/* A collective that doesn't wait is never waited for. */
#include <mpi.h>
int main(int argc, char **argv) {
    int number = 3;
    MPI_Request request;
    MPI_Init(&argc, &argv);
    MPI_Ibcast(&number, 1, MPI_INT, 0, MPI_COMM_WORLD, &request);
    MPI_Finalize();
}
