/* Faulty: rank 1 waits for another tag than rank 0 sends; with a word any rank may send, or it looks, or tests. */
#include <mpi.h>
#include <string.h>
int main(int n, char **v) {
    int me, a = 0, flag = 0;
    MPI_Init(&n, &v);
    MPI_Comm_rank(MPI_COMM_WORLD, &me);
    if (me == 0) MPI_Send(&a, 1, MPI_INT, 1, 10, MPI_COMM_WORLD);
    if (me == 2) MPI_Send(&a, 1, MPI_INT, 1, 12, MPI_COMM_WORLD);
    if (me == 1 && n > 1 && strcmp(v[1], "looks") == 0)
        while (!flag) MPI_Iprobe(0, 11, MPI_COMM_WORLD, &flag, MPI_STATUS_IGNORE);
    if (me == 1 && n > 1 && strcmp(v[1], "tests") == 0) {
        MPI_Request request;
        MPI_Irecv(&a, 1, MPI_INT, 0, 11, MPI_COMM_WORLD, &request);
        while (!flag) MPI_Test(&request, &flag, MPI_STATUS_IGNORE);
    }
    if (me == 1) MPI_Recv(&a, 1, MPI_INT, n > 1 ? MPI_ANY_SOURCE : 0, 11, MPI_COMM_WORLD, MPI_STATUS_IGNORE);
    MPI_Finalize();
}
