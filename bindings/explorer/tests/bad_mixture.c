/* Faulty in a mixture alone: where rank 1's first send is buffered its second one may come first, and then two sends
 * that wait stand head to head. Where all are buffered it ends, and where none is, too. */
#include <mpi.h>
int main(int argc, char **argv) {
    int me, a = 0;
    const MPI_Comm w = MPI_COMM_WORLD;
    MPI_Init(&argc, &argv);
    MPI_Comm_rank(w, &me);
    if (me == 0) {
        MPI_Recv(&a, 1, MPI_INT, MPI_ANY_SOURCE, 1, w, MPI_STATUS_IGNORE);
        MPI_Send(&a, 1, MPI_INT, 2, 9, w);
        MPI_Recv(&a, 1, MPI_INT, MPI_ANY_SOURCE, 1, w, MPI_STATUS_IGNORE);
    } else if (me == 1) {
        MPI_Send(&a, 1, MPI_INT, 2, 5, w);
        MPI_Send(&a, 1, MPI_INT, 0, 1, w);
    } else {
        MPI_Send(&a, 1, MPI_INT, 0, 1, w);
        MPI_Recv(&a, 1, MPI_INT, 0, 9, w, MPI_STATUS_IGNORE);
        MPI_Recv(&a, 1, MPI_INT, 1, 5, w, MPI_STATUS_IGNORE);
    }
    MPI_Finalize();
}
