/* Heat in a rod whose left end is kept at 100 degrees, its right one at 0: each rank has a part, and copies of its
 * neighbours' edges, which it exchanges before each step. Beyond the ends is MPI_PROC_NULL.
 *
 *   ./run -n 4 examples/c/halo_exchange.c
 */
#include <mpi.h>
#include <stdio.h>

enum { PART = 8, STEPS = 4000 };

int main(int argc, char **argv) {
    int rank, size;
    double rod[PART + 2] = {0}, next[PART + 2];
    MPI_Init(&argc, &argv);
    MPI_Comm_rank(MPI_COMM_WORLD, &rank);
    MPI_Comm_size(MPI_COMM_WORLD, &size);
    int left = rank == 0 ? MPI_PROC_NULL : rank - 1, right = rank == size - 1 ? MPI_PROC_NULL : rank + 1;
    if (rank == 0) rod[0] = 100;
    for (int step = 0; step < STEPS; step++) {
        MPI_Sendrecv(&rod[PART], 1, MPI_DOUBLE, right, 0, &rod[0], 1, MPI_DOUBLE, left, 0, MPI_COMM_WORLD,
                     MPI_STATUS_IGNORE);
        MPI_Sendrecv(&rod[1], 1, MPI_DOUBLE, left, 1, &rod[PART + 1], 1, MPI_DOUBLE, right, 1, MPI_COMM_WORLD,
                     MPI_STATUS_IGNORE);
        for (int i = 1; i <= PART; i++) next[i] = rod[i] + 0.4 * (rod[i - 1] - 2 * rod[i] + rod[i + 1]);
        for (int i = 1; i <= PART; i++) rod[i] = next[i];
    }
    double sum = 0, mean, means[64];
    for (int i = 1; i <= PART; i++) sum += rod[i];
    mean = sum / PART;
    MPI_Gather(&mean, 1, MPI_DOUBLE, means, 1, MPI_DOUBLE, 0, MPI_COMM_WORLD);
    for (int i = 0; rank == 0 && i < size; i++) printf("part %d: %.1f degrees\n", i, means[i]);
    MPI_Finalize();
    return 0;
}
