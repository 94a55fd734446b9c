/* Not for the explorer: what rank 1 does hangs on a file, which each run changes. */
#include <mpi.h>
#include <stdio.h>
int main(int n, char **v) {
    int me, a = 0, left = 0;
    MPI_Init(&n, &v);
    MPI_Comm_rank(MPI_COMM_WORLD, &me);
    if (me == 1) {
        FILE *file = fopen(v[1], "a");
        fseek(file, 0, SEEK_END);
        left = (int)(ftell(file) % 2);
        fputc('x', file);
        fclose(file);
    }
    if (me == 0) MPI_Recv(&a, 1, MPI_INT, MPI_ANY_SOURCE, 0, MPI_COMM_WORLD, MPI_STATUS_IGNORE);
    else if (!left) MPI_Send(&me, 1, MPI_INT, 0, 0, MPI_COMM_WORLD);
    MPI_Finalize();
}
