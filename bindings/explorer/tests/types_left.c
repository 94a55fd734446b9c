/* Three types are made at two lines, and one more is freed. */
#include <mpi.h>
static MPI_Datatype pair(void) {
    MPI_Datatype made;
    MPI_Type_contiguous(2, MPI_INT, &made);
    return made;
}
int main(int argc, char **argv) {
    MPI_Datatype row, freed;
    MPI_Init(&argc, &argv);
    freed = pair();
    MPI_Type_free(&freed);
    for (int i = 0; i < 2; i++) (void)pair();
    MPI_Type_vector(2, 1, 3, MPI_DOUBLE, &row);
    MPI_Type_commit(&row);
    MPI_Finalize();
}
