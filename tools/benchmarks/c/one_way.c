/* Messages of 1 MiB one way, and one back behind them: `one_way N`. Rank 0 says that it is done. */
#include <mpi.h>
#include <stdio.h>
#include <stdlib.h>
#include <string.h>

enum { LENGTH = 1 << 20 };

int main(int argc, char **argv) {
    int rank, count = argc > 1 ? atoi(argv[1]) : 1;
    char *row = calloc(1, LENGTH);
    MPI_Init(&argc, &argv);
    MPI_Comm_rank(MPI_COMM_WORLD, &rank);
    for (int i = 0; i < count; i++) {
        if (rank == 0) MPI_Send(row, LENGTH, MPI_BYTE, 1, 1, MPI_COMM_WORLD);
        if (rank == 1) MPI_Recv(row, LENGTH, MPI_BYTE, 0, 1, MPI_COMM_WORLD, MPI_STATUS_IGNORE);
    }
    if (rank == 1) MPI_Send(row, 1, MPI_BYTE, 0, 2, MPI_COMM_WORLD);
    if (rank == 0) {
        MPI_Recv(row, 1, MPI_BYTE, 1, 2, MPI_COMM_WORLD, MPI_STATUS_IGNORE);
        printf("done\n");
        fflush(stdout);
    }
    MPI_Finalize();
    free(row);
    return 0;
}
