/* Messages of derived types between ranks, also long ones: columns of a matrix go to rows (MPI 3.1, 3.3.1 and 4.1). */
#include "test.h"

enum { ROWS = 500, COLUMNS = 300 };

static double matrix[ROWS][COLUMNS], columns[COLUMNS][ROWS];

/* Rank 0 sends each column, rank 1 receives it as a row of its own. */
static void check_columns(void) {
    MPI_Datatype column;
    MPI_Type_vector(ROWS, 1, COLUMNS, MPI_DOUBLE, &column);
    MPI_Type_commit(&column);
    if (test_rank == 0) {
        for (int i = 0; i < ROWS; i++)
            for (int j = 0; j < COLUMNS; j++) matrix[i][j] = i * 1000.0 + j;
        for (int j = 0; j < COLUMNS; j++) MPI_Send(&matrix[0][j], 1, column, 1, j, MPI_COMM_WORLD);
    } else if (test_rank == 1) {
        long wrong = 0;
        for (int j = 0; j < COLUMNS; j++)
            MPI_Recv(columns[j], ROWS, MPI_DOUBLE, 0, j, MPI_COMM_WORLD, MPI_STATUS_IGNORE);
        for (int j = 0; j < COLUMNS; j++)
            for (int i = 0; i < ROWS; i++) wrong += columns[j][i] != i * 1000.0 + j;
        CHECK(wrong == 0);
    }
    MPI_Type_free(&column);
}

/* A quarter of the matrix goes as one message of some hundred kilobytes, and is received through another type. */
static void check_block(void) {
    MPI_Datatype block, thin;
    MPI_Type_vector(ROWS / 2, COLUMNS / 2, COLUMNS, MPI_DOUBLE, &block);
    MPI_Type_vector(ROWS / 2 * (COLUMNS / 2), 1, 2, MPI_DOUBLE, &thin);
    MPI_Type_commit(&block);
    MPI_Type_commit(&thin);
    if (test_rank == 0) {
        MPI_Ssend(&matrix[10][20], 1, block, 1, 1, MPI_COMM_WORLD);
    } else if (test_rank == 1) {
        double *into = (double *)matrix;
        long wrong = 0;
        MPI_Status status;
        int count = -1;
        memset(matrix, 0, sizeof matrix);
        MPI_Recv(into, 1, thin, 0, 1, MPI_COMM_WORLD, &status);
        MPI_Get_count(&status, thin, &count);
        CHECK(count == 1);
        for (int i = 0; i < ROWS / 2; i++)
            for (int j = 0; j < COLUMNS / 2; j++) {
                long at = 2L * (i * (COLUMNS / 2) + j);
                wrong += into[at] != (i + 10) * 1000.0 + j + 20;
                if (at + 1 < 2L * (ROWS / 2) * (COLUMNS / 2) - 1) wrong += into[at + 1] != 0;
            }
        CHECK(wrong == 0);
    }
    MPI_Type_free(&block);
    MPI_Type_free(&thin);
}

int main(int argc, char **argv) {
    test_begin(&argc, &argv);
    check_columns();
    check_block();
    return test_end();
}
