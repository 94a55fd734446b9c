/* Two ranks that both send 60,000 bytes before they receive: they end where such a message goes in one frame, as it
 * does between ranks on one machine, and else wait for each other. */
#include <mpi.h>
#include <stdio.h>

int main(int argc, char **argv) {
    static char sent[60000], came[60000];
    int rank, count = 0;
    MPI_Status status;
    MPI_Init(&argc, &argv);
    MPI_Comm_rank(MPI_COMM_WORLD, &rank);
    MPI_Send(sent, (int)sizeof sent, MPI_CHAR, 1 - rank, 0, MPI_COMM_WORLD);
    MPI_Recv(came, (int)sizeof came, MPI_CHAR, 1 - rank, 0, MPI_COMM_WORLD, &status);
    MPI_Get_count(&status, MPI_CHAR, &count);
    printf("rank %d: %d bytes came\n", rank, count);
    MPI_Finalize();
    return 0;
}
