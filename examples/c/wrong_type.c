/* A bug: rank 0 sends a double, rank 1 receives a float. Where nobody compares the types, this goes unnoticed or is told
 * as a message that is too long; here the receive is told that the types differ, and the job ends.
 *
 *   ./run -n 2 examples/c/wrong_type.c        status 3
 */
#include <mpi.h>
#include <stdio.h>

int main(int argc, char **argv) {
    int rank;
    MPI_Init(&argc, &argv);
    MPI_Comm_rank(MPI_COMM_WORLD, &rank);
    if (rank == 0) {
        double temperature = 36.6;
        MPI_Send(&temperature, 1, MPI_DOUBLE, 1, 0, MPI_COMM_WORLD);
    } else {
        float temperature = 0;
        MPI_Recv(&temperature, 1, MPI_FLOAT, 0, 0, MPI_COMM_WORLD, MPI_STATUS_IGNORE);
        printf("%.1f\n", temperature);
    }
    MPI_Finalize();
    return 0;
}
