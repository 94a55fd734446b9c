/* A part of an array that reaches over its end. */
#include <mpi.h>

int main(int argc, char **argv) {
    MPI_Datatype made;
    MPI_Init(&argc, &argv);
    MPI_Type_create_subarray(2, (int[]){4, 5}, (int[]){2, 3}, (int[]){0, 3}, MPI_ORDER_C, MPI_INT, &made);
    MPI_Finalize();
    return 0;
}
