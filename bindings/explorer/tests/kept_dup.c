/* Right: rank 0 copies the communicator while rank 1 waits for whoever comes. It stays in that call, though MPI would let
 * it leave before rank 1 is there. */
#include <mpi.h>
int main(int n, char **v) {
    int me, note = 0;
    MPI_Comm copy;
    MPI_Init(&n, &v);
    MPI_Comm_rank(MPI_COMM_WORLD, &me);
    if (me == 2) MPI_Send(&note, 1, MPI_INT, 1, 0, MPI_COMM_WORLD);
    if (me == 1) MPI_Recv(&note, 1, MPI_INT, MPI_ANY_SOURCE, 0, MPI_COMM_WORLD, MPI_STATUS_IGNORE);
    MPI_Comm_dup(MPI_COMM_WORLD, &copy);
    MPI_Comm_free(&copy);
    MPI_Finalize();
}
