/* Right, and untidy: rank 0 frees one of three persistent requests, rank 1 none of one. */
#include <mpi.h>
int main(int n, char **v) {
    int me, a = 0;
    MPI_Request q[3];
    MPI_Init(&n, &v);
    MPI_Comm_rank(MPI_COMM_WORLD, &me);
    for (int i = 0; i < (me == 0 ? 3 : 1); i++) {
        if (me == 0) MPI_Send_init(&a, 1, MPI_INT, 1, i, MPI_COMM_WORLD, &q[i]);
        else MPI_Recv_init(&a, 1, MPI_INT, 0, 0, MPI_COMM_WORLD, &q[i]);
    }
    MPI_Start(&q[0]);
    MPI_Wait(&q[0], MPI_STATUS_IGNORE);
    if (me == 0) MPI_Request_free(&q[2]);
    MPI_Finalize();
}
