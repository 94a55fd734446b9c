/* Two collectives that don't wait are begun in another order by the last rank. */
#include <mpi.h>
int main(int argc, char **argv) {
    int me, size, number = 3;
    MPI_Request requests[2];
    MPI_Init(&argc, &argv);
    MPI_Comm_rank(MPI_COMM_WORLD, &me);
    MPI_Comm_size(MPI_COMM_WORLD, &size);
    if (me < size - 1) {
        MPI_Ibarrier(MPI_COMM_WORLD, &requests[0]);
        MPI_Ibcast(&number, 1, MPI_INT, 0, MPI_COMM_WORLD, &requests[1]);
    } else {
        MPI_Ibcast(&number, 1, MPI_INT, 0, MPI_COMM_WORLD, &requests[1]);
        MPI_Ibarrier(MPI_COMM_WORLD, &requests[0]);
    }
    MPI_Waitall(2, requests, MPI_STATUSES_IGNORE);
    MPI_Finalize();
}
