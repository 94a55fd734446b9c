/* Sends buffered where the buffer has too little room. */
#include <mpi.h>

int main(int argc, char **argv) {
    static char room[100];
    int row[10] = {0};
    MPI_Init(&argc, &argv);
    MPI_Buffer_attach(room, sizeof room);
    MPI_Bsend(row, 10, MPI_INT, 0, 0, MPI_COMM_WORLD);
    MPI_Finalize();
    return 0;
}
