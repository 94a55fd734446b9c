/* Gather and scatter (MPI 3.1, 5.5 and 5.6): every root, in place, derived types, long blocks. */
#include "test.h"

enum { BLOCK = 5, LONG = 300000 };

static int value(int rank, int at) { return (int)mixed((unsigned)rank, (unsigned)at, 3); }

/* The blocks of all members, in rank order. */
static bool are_blocks(const int *all, int length) {
    for (int rank = 0; rank < test_size; rank++)
        for (int i = 0; i < length; i++)
            if (all[rank * length + i] != value(rank, i)) return false;
    return true;
}

static void check_gather(int root, int length, bool in_place) {
    int *own = malloc(sizeof *own * (size_t)(length + 1)), *all = NULL;
    for (int i = 0; i < length; i++) own[i] = value(test_rank, i);
    if (test_rank == root) {
        all = malloc(sizeof *all * (size_t)(length * test_size + 1));
        memset(all, 0, sizeof *all * (size_t)(length * test_size + 1));
        if (in_place) memcpy(all + root * length, own, sizeof *own * (size_t)length);
        MPI_Gather(in_place ? MPI_IN_PLACE : own, length, MPI_INT, all, length, MPI_INT, root, MPI_COMM_WORLD);
        CHECK(are_blocks(all, length));
        CHECK(all[length * test_size] == 0);
    } else {
        MPI_Gather(own, length, MPI_INT, NULL, -1, MPI_DATATYPE_NULL, root, MPI_COMM_WORLD);
    }
    free(own);
    free(all);
}

static void check_scatter(int root, int length, bool in_place) {
    int *own = malloc(sizeof *own * (size_t)(length + 1)), *all = NULL;
    int wrong = 0;
    for (int i = 0; i <= length; i++) own[i] = -1;
    if (test_rank == root) {
        all = malloc(sizeof *all * (size_t)(length * test_size + 1));
        for (int i = 0; i < length * test_size; i++) all[i] = value(i / length, i % length);
        MPI_Scatter(all, length, MPI_INT, in_place ? MPI_IN_PLACE : own, length, MPI_INT, root, MPI_COMM_WORLD);
        CHECK(are_blocks(all, length));
    } else {
        MPI_Scatter(NULL, -1, MPI_DATATYPE_NULL, own, length, MPI_INT, root, MPI_COMM_WORLD);
    }
    for (int i = 0; i < length; i++) wrong += own[i] != (test_rank == root && in_place ? -1 : value(test_rank, i));
    CHECK(wrong == 0 && own[length] == -1);
    free(own);
    free(all);
}

/* Each member sends a column of its own; the root receives them as columns of one matrix: items overlap in memory. */
static void check_columns(int root) {
    enum { ROWS = 6 };
    int mine[ROWS][3], wrong = 0;
    int *matrix = calloc((size_t)(ROWS * test_size), sizeof *matrix);
    MPI_Datatype column, row;
    MPI_Type_vector(ROWS, 1, 3, MPI_INT, &column);
    MPI_Type_contiguous(ROWS, MPI_INT, &row);
    MPI_Type_commit(&column);
    MPI_Type_commit(&row);
    for (int i = 0; i < ROWS * 3; i++) mine[i / 3][i % 3] = i % 3 == 1 ? value(test_rank, i / 3) : -1;
    MPI_Gather(&mine[0][1], 1, column, matrix, 1, row, root, MPI_COMM_WORLD);
    if (test_rank == root) CHECK(are_blocks(matrix, ROWS));
    for (int i = 0; i < ROWS * 3; i++) mine[i / 3][i % 3] = -1;
    MPI_Scatter(matrix, ROWS, MPI_INT, &mine[0][1], 1, column, root, MPI_COMM_WORLD);
    for (int i = 0; i < ROWS * 3; i++) wrong += mine[i / 3][i % 3] != (i % 3 == 1 ? value(test_rank, i / 3) : -1);
    CHECK(wrong == 0);
    MPI_Type_free(&column);
    MPI_Type_free(&row);
    free(matrix);
}

/* Numbers of every width, and characters. */
static void check_types(void) {
    const struct named_type types[] = {INTEGER_TYPES, OTHER_TYPES};
    for (size_t i = 0; i < sizeof types / sizeof *types; i++) {
        size_t bytes = (size_t)(BLOCK * types[i].size);
        unsigned char own[BLOCK * 16], *all = calloc((size_t)test_size, bytes);
        fill(own, bytes, (unsigned)test_rank);
        MPI_Gather(own, BLOCK, types[i].type, all, BLOCK, types[i].type, 0, MPI_COMM_WORLD);
        for (int rank = 0; test_rank == 0 && rank < test_size; rank++)
            CHECK(is_filled(all + (size_t)rank * bytes, bytes, (unsigned)rank));
        memset(own, 0, sizeof own);
        MPI_Scatter(all, BLOCK, types[i].type, own, BLOCK, types[i].type, 0, MPI_COMM_WORLD);
        CHECK(is_filled(own, bytes, (unsigned)test_rank));
        free(all);
    }
}

int main(int argc, char **argv) {
    test_begin(&argc, &argv);
    for (int root = 0; root < test_size; root++) {
        for (int in_place = 0; in_place <= 1; in_place++) {
            check_gather(root, BLOCK, in_place);
            check_scatter(root, BLOCK, in_place);
            check_gather(root, 400, in_place);
            check_scatter(root, 400, in_place);
        }
        check_columns(root);
    }
    check_gather(test_size - 1, LONG, false);
    check_scatter(0, LONG, false);
    check_types();
    return test_end();
}
