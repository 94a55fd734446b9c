/* Faulty: rank 0 looks for one message more than come, in as many ways as its looks say no. */
#include <mpi.h>
int main(int n, char **v) {
    int me, size, a = 0, flag = 0;
    MPI_Status status;
    MPI_Init(&n, &v);
    MPI_Comm_rank(MPI_COMM_WORLD, &me);
    MPI_Comm_size(MPI_COMM_WORLD, &size);
    for (int i = 0; me == 0 && i < size; i += flag) {
        MPI_Iprobe(MPI_ANY_SOURCE, 0, MPI_COMM_WORLD, &flag, &status);
        if (flag) MPI_Recv(&a, 1, MPI_INT, status.MPI_SOURCE, 0, MPI_COMM_WORLD, MPI_STATUS_IGNORE);
    }
    if (me != 0) MPI_Send(&me, 1, MPI_INT, 0, 0, MPI_COMM_WORLD);
    MPI_Finalize();
}
