/* The buffer has room for one message, and nothing says that the first one was received when the second one is sent. */
#include <mpi.h>
#include <stdlib.h>
int main(int argc, char **argv) {
    int me, number = 7, size = MPI_BSEND_OVERHEAD + sizeof number;
    MPI_Init(&argc, &argv);
    MPI_Comm_rank(MPI_COMM_WORLD, &me);
    if (me == 0) {
        void *buffer = malloc((size_t)size);
        MPI_Buffer_attach(buffer, size);
        MPI_Bsend(&number, 1, MPI_INT, 1, 0, MPI_COMM_WORLD);
        MPI_Bsend(&number, 1, MPI_INT, 1, 0, MPI_COMM_WORLD);
        MPI_Buffer_detach(&buffer, &size);
        free(buffer);
    } else if (me == 1) {
        MPI_Recv(&number, 1, MPI_INT, 0, 0, MPI_COMM_WORLD, MPI_STATUS_IGNORE);
        MPI_Recv(&number, 1, MPI_INT, 0, 0, MPI_COMM_WORLD, MPI_STATUS_IGNORE);
    }
    MPI_Finalize();
}
