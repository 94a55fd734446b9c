/* Reductions of floating-point numbers (MPI 3.1, 5.9.2), by numbers whose sums and products are exact. */
#include "test.h"

enum { COUNT = 9 };

/* A small whole number, also a negative one. */
static double element(int rank, int at) { return (double)(mixed((unsigned)rank, (unsigned)at, 9) % 9) - 4; }

static double combined(MPI_Op op, double a, double b) {
    if (op == MPI_MAX) return a > b ? a : b;
    if (op == MPI_MIN) return a < b ? a : b;
    return op == MPI_SUM ? a + b : a * b;
}
static double expected(MPI_Op op, int at) {
    double all = element(0, at);
    for (int rank = 1; rank < test_size; rank++) all = combined(op, all, element(rank, at));
    return all;
}

#define CHECK_TYPE(name, c_type, mpi_type)                                                                             \
    static void name(MPI_Op op, int root) {                                                                            \
        c_type own[COUNT], row[COUNT + 1];                                                                             \
        memset(own, 0, sizeof own);                                                                                    \
        memset(row, 0, sizeof row);                                                                                    \
        for (int at = 0; at < COUNT; at++) own[at] = (c_type)element(test_rank, at);                                   \
        row[COUNT] = 77;                                                                                               \
        MPI_Reduce(own, row, COUNT, mpi_type, op, root, MPI_COMM_WORLD);                                               \
        for (int at = 0; test_rank == root && at < COUNT; at++) CHECK(row[at] == (c_type)expected(op, at));            \
        MPI_Allreduce(own, row, COUNT, mpi_type, op, MPI_COMM_WORLD);                                                  \
        for (int at = 0; at < COUNT; at++) CHECK(row[at] == (c_type)expected(op, at));                                 \
        memcpy(row, own, sizeof own);                                                                                  \
        MPI_Allreduce(MPI_IN_PLACE, row, COUNT, mpi_type, op, MPI_COMM_WORLD);                                         \
        for (int at = 0; at < COUNT; at++) CHECK(row[at] == (c_type)expected(op, at));                                 \
        memcpy(row, own, sizeof own);                                                                                  \
        MPI_Reduce(test_rank == root ? MPI_IN_PLACE : row, test_rank == root ? row : NULL, COUNT, mpi_type, op, root,  \
                   MPI_COMM_WORLD);                                                                                    \
        for (int at = 0; test_rank == root && at < COUNT; at++) CHECK(row[at] == (c_type)expected(op, at));            \
        CHECK(row[COUNT] == 77);                                                                                       \
    }

CHECK_TYPE(check_float, float, MPI_FLOAT)
CHECK_TYPE(check_double, double, MPI_DOUBLE)
CHECK_TYPE(check_long_double, long double, MPI_LONG_DOUBLE)

/* A row that goes in several parts. */
static void check_long_row(void) {
    const int count = 150000;
    double *own = malloc(sizeof *own * (size_t)count), *all = malloc(sizeof *all * (size_t)count);
    int wrong = 0;
    for (int i = 0; i < count; i++) own[i] = i + test_rank * 0.5;
    MPI_Allreduce(own, all, count, MPI_DOUBLE, MPI_SUM, MPI_COMM_WORLD);
    for (int i = 0; i < count; i++) wrong += all[i] != (double)i * test_size + test_size * (test_size - 1) / 4.0;
    CHECK(wrong == 0);
    free(own);
    free(all);
}

int main(int argc, char **argv) {
    const MPI_Op operations[] = {MPI_MAX, MPI_MIN, MPI_SUM, MPI_PROD};
    test_begin(&argc, &argv);
    for (int i = 0; i < 4; i++) {
        for (int root = 0; root < test_size; root++) {
            check_float(operations[i], root);
            check_double(operations[i], root);
            check_long_double(operations[i], root);
        }
    }
    check_long_row();
    return test_end();
}
