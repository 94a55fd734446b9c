/* Wrong: some members free a communicator, and another one doesn't, though all have to (MPI 3.1, 6.4.3). By its first
 * word it is a copy, a part, one whose copy doesn't wait, or one that is left by disconnecting; or nobody frees it. */
#include <mpi.h>
#include <string.h>
int main(int argc, char **argv) {
    int me;
    const char *how = argc > 1 ? argv[1] : "copy";
    MPI_Comm made;
    MPI_Request request;
    MPI_Init(&argc, &argv);
    MPI_Comm_rank(MPI_COMM_WORLD, &me);
    if (strcmp(how, "part") == 0) {
        MPI_Comm_split(MPI_COMM_WORLD, me > 0, 0, &made);
    } else if (strcmp(how, "later") == 0) {
        MPI_Comm_idup(MPI_COMM_WORLD, &made, &request);
        MPI_Wait(&request, MPI_STATUS_IGNORE);
    } else {
        MPI_Comm_dup(MPI_COMM_WORLD, &made);
    }
    if (strcmp(how, "leaves") == 0 && me != 2) MPI_Comm_disconnect(&made);
    else if (strcmp(how, "nobody") != 0 && me != 2) MPI_Comm_free(&made);
    MPI_Finalize();
}
