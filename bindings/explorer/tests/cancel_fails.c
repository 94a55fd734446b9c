/* Right by MPI, and fails where the cancel of its receive comes first: the ends of no two runs may differ by which
 * process was faster. */
#include <mpi.h>
#include <stdlib.h>
int main(int argc, char **argv) {
    int me, number = 0, is_cancelled;
    MPI_Request request;
    MPI_Status status;
    MPI_Init(&argc, &argv);
    MPI_Comm_rank(MPI_COMM_WORLD, &me);
    if (me == 0) {
        if (argc > 1) MPI_Recv_init(&number, 1, MPI_INT, 1, 1, MPI_COMM_WORLD, &request), MPI_Start(&request);
        else MPI_Irecv(&number, 1, MPI_INT, 1, 1, MPI_COMM_WORLD, &request);
        MPI_Cancel(&request);
        MPI_Wait(&request, &status);
        MPI_Test_cancelled(&status, &is_cancelled);
        if (is_cancelled) {
            MPI_Recv(&number, 1, MPI_INT, 1, 1, MPI_COMM_WORLD, &status);
            exit(4);
        }
        if (argc > 1) MPI_Request_free(&request);
    } else {
        MPI_Send(&me, 1, MPI_INT, 0, 1, MPI_COMM_WORLD);
    }
    MPI_Finalize();
}
