/* One look at a barrier that was begun is taken for granted. */
#include <mpi.h>
int main(int argc, char **argv) {
    int flag = 0;
    MPI_Request request;
    MPI_Init(&argc, &argv);
    MPI_Ibarrier(MPI_COMM_WORLD, &request);
    MPI_Test(&request, &flag, MPI_STATUS_IGNORE);
    if (!flag) MPI_Abort(MPI_COMM_WORLD, 3);
    MPI_Finalize();
}
