/* More is packed than the buffer has room for. */
#include <mpi.h>

int main(int argc, char **argv) {
    int data[4] = {1, 2, 3, 4}, position = 4;
    char row[16];
    MPI_Init(&argc, &argv);
    MPI_Pack(data, 4, MPI_INT, row, 16, &position, MPI_COMM_WORLD);
    MPI_Finalize();
    return 0;
}
