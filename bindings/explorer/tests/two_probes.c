/* Right: the second probe of any source sees another message than the first one, or the same one: both results are told. */
#include <mpi.h>
#include <stdio.h>
int main(int n, char **v) {
    int me, number = 7;
    MPI_Status first, second;
    MPI_Init(&n, &v);
    MPI_Comm_rank(MPI_COMM_WORLD, &me);
    if (me == 0) {
        MPI_Probe(MPI_ANY_SOURCE, 5, MPI_COMM_WORLD, &first);
        MPI_Probe(MPI_ANY_SOURCE, MPI_ANY_TAG, MPI_COMM_WORLD, &second);
        printf("the second probe sees rank %d\n", second.MPI_SOURCE);
        MPI_Recv(&number, 1, MPI_INT, 1, 5, MPI_COMM_WORLD, MPI_STATUS_IGNORE);
        MPI_Recv(&number, 1, MPI_INT, 2, 7, MPI_COMM_WORLD, MPI_STATUS_IGNORE);
    } else {
        MPI_Send(&number, 1, MPI_INT, 0, me == 1 ? 5 : 7, MPI_COMM_WORLD);
    }
    MPI_Finalize();
}
