/* An integer that is received as a struct of an integer and a double: legal, and refused (docs/C_TYPES.md). */
#include <mpi.h>

int main(int argc, char **argv) {
    MPI_Datatype mixed;
    MPI_Request request;
    int number = 5;
    char into[16];
    MPI_Init(&argc, &argv);
    MPI_Type_create_struct(2, (int[]){1, 1}, (MPI_Aint[]){0, 8}, (MPI_Datatype[]){MPI_INT, MPI_DOUBLE}, &mixed);
    MPI_Type_commit(&mixed);
    MPI_Isend(&number, 1, MPI_INT, 0, 4, MPI_COMM_WORLD, &request);
    MPI_Recv(into, 1, mixed, 0, 4, MPI_COMM_WORLD, MPI_STATUS_IGNORE);
    MPI_Wait(&request, MPI_STATUS_IGNORE);
    MPI_Finalize();
    return 0;
}
