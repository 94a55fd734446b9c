/* MPI_Finalize leaves nothing behind: what was sent last is received by a rank that comes late (MPI 3.1, 8.7). */
#include "test.h"

int main(int argc, char **argv) {
    test_begin(&argc, &argv);
    int number = 41;
    if (test_rank != 0) {
        MPI_Send(&number, 1, MPI_INT, 0, 0, MPI_COMM_WORLD);
    } else {
        double until = MPI_Wtime() + 0.3;
        while (MPI_Wtime() < until) {}
        for (int i = 1; i < test_size; i++) {
            number = 0;
            MPI_Recv(&number, 1, MPI_INT, i, 0, MPI_COMM_WORLD, MPI_STATUS_IGNORE);
            CHECK(number == 41);
        }
        printf(test_errors == 0 ? "No Errors\n" : "%d errors\n", test_errors);
    }
    MPI_Finalize();
    return test_errors != 0;
}
