/* Pi as an integral: each rank adds up every so many rectangles, a reduction adds the sums in the order of the ranks.
 *
 *   ./run -n 4 examples/c/pi.c
 */
#include <math.h>
#include <mpi.h>
#include <stdio.h>

int main(int argc, char **argv) {
    int rank, size, rectangles = 0;
    double own = 0, pi = 0;
    MPI_Init(&argc, &argv);
    MPI_Comm_rank(MPI_COMM_WORLD, &rank);
    MPI_Comm_size(MPI_COMM_WORLD, &size);
    if (rank == 0) rectangles = 1000000;
    MPI_Bcast(&rectangles, 1, MPI_INT, 0, MPI_COMM_WORLD);
    for (int i = rank; i < rectangles; i += size) {
        double x = (i + 0.5) / rectangles;
        own += 4 / (1 + x * x) / rectangles;
    }
    MPI_Reduce(&own, &pi, 1, MPI_DOUBLE, MPI_SUM, 0, MPI_COMM_WORLD);
    if (rank == 0) printf("pi is %.10f, %s by less than 1e-10\n", pi, fabs(pi - acos(-1)) < 1e-10 ? "off" : "not off");
    MPI_Finalize();
    return 0;
}
