/* Sums of floating-point numbers are left folds in rank order: the same bits in every run, whatever the root. */
#include "test.h"

/* Numbers of which each other order has another sum: a large one, its opposite, and small ones. */
static double element(int rank) {
    static const double list[] = {1e20, 1, -1e20, 1, 3.14159, 1e-9, 1e9, -7};
    return list[rank % 8];
}

int main(int argc, char **argv) {
    test_begin(&argc, &argv);
    double own = element(test_rank), wanted = element(0);
    float small = (float)own, wanted_small = (float)wanted;
    long double large = own, wanted_large = wanted;
    for (int rank = 1; rank < test_size; rank++) {
        wanted += element(rank);
        wanted_small += (float)element(rank);
        wanted_large += element(rank);
    }
    for (int turn = 0; turn < 20; turn++) {
        double all = 0, at_root = 0;
        float all_small = 0;
        long double all_large = 0;
        MPI_Allreduce(&own, &all, 1, MPI_DOUBLE, MPI_SUM, MPI_COMM_WORLD);
        MPI_Reduce(&own, &at_root, 1, MPI_DOUBLE, MPI_SUM, turn % test_size, MPI_COMM_WORLD);
        MPI_Allreduce(&small, &all_small, 1, MPI_FLOAT, MPI_SUM, MPI_COMM_WORLD);
        MPI_Allreduce(&large, &all_large, 1, MPI_LONG_DOUBLE, MPI_SUM, MPI_COMM_WORLD);
        CHECK(memcmp(&all, &wanted, sizeof all) == 0);
        CHECK(test_rank != turn % test_size || memcmp(&at_root, &wanted, sizeof all) == 0);
        CHECK(memcmp(&all_small, &wanted_small, sizeof all_small) == 0);
        CHECK(all_large == wanted_large);
    }
    return test_end();
}
