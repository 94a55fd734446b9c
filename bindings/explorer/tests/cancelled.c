/* Right: cancels a receive, and receives once more where that was in time. Which comes first is no choice of the
 * search. */
#include <mpi.h>
int main(int argc, char **argv) {
    int me, number = 0, is_cancelled;
    MPI_Request request;
    MPI_Status status;
    MPI_Init(&argc, &argv);
    MPI_Comm_rank(MPI_COMM_WORLD, &me);
    if (me == 0) {
        MPI_Irecv(&number, 1, MPI_INT, 1, 0, MPI_COMM_WORLD, &request);
        MPI_Cancel(&request);
        MPI_Wait(&request, &status);
        MPI_Test_cancelled(&status, &is_cancelled);
        if (is_cancelled) MPI_Recv(&number, 1, MPI_INT, 1, 0, MPI_COMM_WORLD, &status);
    } else {
        MPI_Send(&number, 1, MPI_INT, 0, 0, MPI_COMM_WORLD);
    }
    MPI_Finalize();
}
