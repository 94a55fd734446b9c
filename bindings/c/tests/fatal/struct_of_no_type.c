/* A struct one of whose types is none. */
#include <mpi.h>

int main(int argc, char **argv) {
    MPI_Datatype made;
    MPI_Init(&argc, &argv);
    MPI_Type_create_struct(2, (int[]){1, 1}, (MPI_Aint[]){0, 8}, (MPI_Datatype[]){MPI_INT, MPI_DATATYPE_NULL}, &made);
    MPI_Finalize();
    return 0;
}
