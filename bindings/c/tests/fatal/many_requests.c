/* Opens more requests than there may be at one time. */
#include <mpi.h>

int main(int argc, char **argv) {
    int number;
    MPI_Request request;
    MPI_Init(&argc, &argv);
    for (int i = 0; i < 70000; i++) MPI_Irecv(&number, 1, MPI_INT, 0, 1, MPI_COMM_WORLD, &request);
    MPI_Finalize();
    return 0;
}
