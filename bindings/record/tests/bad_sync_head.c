/* Faulty: both ranks send first, by sends that wait for their receives. */
#include <mpi.h>

int main(int argc, char **argv) {
    int me, own = 0;
    MPI_Init(&argc, &argv);
    MPI_Comm_rank(MPI_COMM_WORLD, &me);
    MPI_Ssend(&me, 1, MPI_INT, 1 - me, 4, MPI_COMM_WORLD);
    MPI_Recv(&own, 1, MPI_INT, 1 - me, 4, MPI_COMM_WORLD, MPI_STATUS_IGNORE);
    MPI_Finalize();
    return 0;
}
