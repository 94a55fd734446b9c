/* Two ranks that broadcast from themselves may both be done before they could know of it: rank 0 is told at the end,
 * where neither of them was told before. The handler returns, so that all is closed. */
#include "test.h"

int main(int argc, char **argv) {
    test_begin(&argc, &argv);
    int own = test_rank, number = -1;
    return_errors();
    MPI_Bcast(&number, 1, MPI_INT, 0, MPI_COMM_WORLD);
    int class = class_of(MPI_Bcast(&own, 1, MPI_INT, test_rank, MPI_COMM_WORLD));
    CHECK((class == MPI_SUCCESS || class == MPI_ERR_NOT_SAME) && own == test_rank);
    int is_told = class != MPI_SUCCESS, is_other_told = 0;
    MPI_Sendrecv(&is_told, 1, MPI_INT, 1 - test_rank, 0, &is_other_told, 1, MPI_INT, 1 - test_rank, 0, MPI_COMM_WORLD,
                 MPI_STATUS_IGNORE);
    const int wanted = test_rank == 0 && !is_told && !is_other_told ? MPI_ERR_NOT_SAME : MPI_SUCCESS;
    class = MPI_Finalize();
    if (class != wanted) fprintf(stderr, "rank %d: MPI_Finalize answered %d\n", test_rank, class);
    if (test_rank == 0 && test_errors == 0) printf("No Errors\n");
    return 0;
}
