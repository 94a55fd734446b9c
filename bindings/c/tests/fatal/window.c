/* Makes a window, which isn't supported. */
#include <mpi.h>

int main(int argc, char **argv) {
    int number = 0;
    MPI_Win win;
    MPI_Init(&argc, &argv);
    MPI_Win_create(&number, sizeof number, 1, MPI_INFO_NULL, MPI_COMM_WORLD, &win);
    MPI_Finalize();
    return 0;
}
