/* Packed data are received as what was packed, and the other way round (MPI 3.1, 4.2). */
#include <mpi.h>
#include <stdio.h>
int main(int argc, char **argv) {
    int me, numbers[2] = {5, 6}, at = 0;
    char packed[100];
    MPI_Init(&argc, &argv);
    MPI_Comm_rank(MPI_COMM_WORLD, &me);
    if (me == 0) {
        MPI_Pack(numbers, 2, MPI_INT, packed, sizeof packed, &at, MPI_COMM_WORLD);
        MPI_Send(packed, at, MPI_PACKED, 1, 1, MPI_COMM_WORLD);
        MPI_Send(numbers, 2, MPI_INT, 1, 2, MPI_COMM_WORLD);
    } else if (me == 1) {
        numbers[0] = 0;
        MPI_Recv(numbers, 2, MPI_INT, 0, 1, MPI_COMM_WORLD, MPI_STATUS_IGNORE);
        printf("%d\n", numbers[0]);
        MPI_Recv(packed, sizeof packed, MPI_PACKED, 0, 2, MPI_COMM_WORLD, MPI_STATUS_IGNORE);
        MPI_Unpack(packed, sizeof packed, &at, numbers, 2, MPI_INT, MPI_COMM_WORLD);
        printf("%d\n", numbers[1]);
    }
    MPI_Finalize();
}
