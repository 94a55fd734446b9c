/* Not for the explorer: each rank prints its process, which is another one in each run. */
#include <mpi.h>
#include <stdio.h>
#include <unistd.h>
int main(int n, char **v) {
    int me, size, a;
    MPI_Init(&n, &v);
    MPI_Comm_rank(MPI_COMM_WORLD, &me);
    MPI_Comm_size(MPI_COMM_WORLD, &size);
    for (int i = 1; me == 0 && i < size; i++)
        MPI_Recv(&a, 1, MPI_INT, MPI_ANY_SOURCE, 0, MPI_COMM_WORLD, MPI_STATUS_IGNORE);
    if (me != 0) MPI_Send(&me, 1, MPI_INT, 0, 0, MPI_COMM_WORLD);
    printf("%d\n", (int)getpid());
    MPI_Finalize();
}
