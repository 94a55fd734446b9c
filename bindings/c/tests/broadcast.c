/* Barrier and broadcast (MPI 3.1, 5.3 and 5.4): from every root, of all lengths and types. */
#define _POSIX_C_SOURCE 200809L
#include "test.h"

#include <time.h>

static const struct named_type types[] = {INTEGER_TYPES, OTHER_TYPES};
enum { TYPES = sizeof types / sizeof *types, LONGEST = 1200000 };

static unsigned char row[LONGEST];

static void check_length(int length, int root) {
    unsigned seed = (unsigned)(length + root);
    if (test_rank == root) fill(row, (size_t)length, seed);
    else memset(row, 0, (size_t)length);
    MPI_Bcast(row, length, MPI_BYTE, root, MPI_COMM_WORLD);
    CHECK(is_filled(row, (size_t)length, seed));
}

static void check_type(struct named_type it, int root) {
    size_t bytes = (size_t)(23 * it.size);
    memset(row, 0, bytes + 1);
    if (test_rank == root) fill(row, bytes, (unsigned)it.size);
    MPI_Bcast(row, 23, it.type, root, MPI_COMM_WORLD);
    CHECK(is_filled(row, bytes, (unsigned)it.size) && row[bytes] == 0);
}

/* The root's column is the others' row: their signatures are the same. */
static void check_derived(int root) {
    int matrix[40], wrong = 0;
    MPI_Datatype column;
    MPI_Type_vector(10, 1, 4, MPI_INT, &column);
    MPI_Type_commit(&column);
    for (int i = 0; i < 40; i++) matrix[i] = test_rank == root ? i : -1;
    if ((test_rank + root) % 2 == 0) MPI_Bcast(matrix, 1, column, root, MPI_COMM_WORLD);
    else MPI_Bcast(matrix, 10, MPI_INT, root, MPI_COMM_WORLD);
    if (test_rank != root && (test_rank + root) % 2 == 0)
        for (int i = 0; i < 40; i++) wrong += matrix[i] != (i % 4 == 0 ? i : -1);
    if (test_rank != root && (test_rank + root) % 2 == 1)
        for (int i = 0; i < 40; i++) wrong += matrix[i] != (i < 10 ? 4 * i : -1);
    CHECK(wrong == 0);
    MPI_Type_free(&column);
}

/* Nobody leaves a barrier before all have entered it: the last one enters at a time, which it tells behind the barrier,
 * and nobody left earlier. (All ranks are on one machine, and have one clock.) */
static double seconds(void) {
    struct timespec now;
    clock_gettime(CLOCK_MONOTONIC, &now);
    return (double)now.tv_sec + (double)now.tv_nsec * 1e-9;
}
static void check_barrier(void) {
    double entered, left, until = seconds() + 0.05;
    int last = test_size - 1;
    while (test_rank == last && seconds() < until) {}
    entered = seconds();
    MPI_Barrier(MPI_COMM_WORLD);
    left = seconds();
    MPI_Bcast(&entered, 1, MPI_DOUBLE, last, MPI_COMM_WORLD);
    CHECK(left >= entered);
}

int main(int argc, char **argv) {
    static const int lengths[] = {0, 1, 1000, 1024, 1025, 61424, 61441, 70000, 1048560, 1048561, LONGEST};
    test_begin(&argc, &argv);
    for (int root = 0; root < test_size; root++) {
        for (int i = root % 2; i < 8; i += 2) check_length(lengths[i], root);
        check_derived(root);
    }
    for (int i = 8; i < 11; i++) check_length(lengths[i], i % test_size);
    for (int i = 0; i < TYPES; i++) check_type(types[i], i % test_size);
    check_barrier();
    return test_end();
}
