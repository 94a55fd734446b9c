/* A ring of strips of a grid, each with its neighbours' edges: after some steps the whole is what one process reckons.
 */
#include "test.h"

enum { WIDTH = 60, HEIGHT = 12, STEPS = 30 };

/* Rows 1 to HEIGHT are the rank's own; 0 and HEIGHT + 1 are copies of its neighbours'. */
static long strip[2][HEIGHT + 2][WIDTH];

static long start_value(int row, int column) { return (long)(mixed((unsigned)row, (unsigned)column, 11) % 1000); }

static void exchange(long rows[HEIGHT + 2][WIDTH]) {
    int up = (test_rank + test_size - 1) % test_size, down = (test_rank + 1) % test_size;
    MPI_Request requests[4];
    MPI_Irecv(rows[0], WIDTH, MPI_LONG, up, 1, MPI_COMM_WORLD, &requests[0]);
    MPI_Irecv(rows[HEIGHT + 1], WIDTH, MPI_LONG, down, 2, MPI_COMM_WORLD, &requests[1]);
    MPI_Isend(rows[HEIGHT], WIDTH, MPI_LONG, down, 1, MPI_COMM_WORLD, &requests[2]);
    MPI_Isend(rows[1], WIDTH, MPI_LONG, up, 2, MPI_COMM_WORLD, &requests[3]);
    MPI_Waitall(4, requests, MPI_STATUSES_IGNORE);
}

/* A value of the next step, of the four around it. */
static long next_value(long above, long below, long left, long right) {
    return (above + below + left + right) % 1000003;
}

static void step(long from[HEIGHT + 2][WIDTH], long into[HEIGHT + 2][WIDTH]) {
    for (int i = 1; i <= HEIGHT; i++)
        for (int j = 0; j < WIDTH; j++)
            into[i][j] =
                next_value(from[i - 1][j], from[i + 1][j], from[i][(j + WIDTH - 1) % WIDTH], from[i][(j + 1) % WIDTH]);
}

/* The same for the whole grid by one process. */
static void check_whole(const long *gathered) {
    int rows = HEIGHT * test_size, wrong = 0;
    long *now = malloc(sizeof *now * (size_t)(rows * WIDTH)), *next = malloc(sizeof *next * (size_t)(rows * WIDTH));
    for (int i = 0; i < rows * WIDTH; i++) now[i] = start_value(i / WIDTH, i % WIDTH);
    for (int turn = 0; turn < STEPS; turn++) {
        for (int i = 0; i < rows; i++)
            for (int j = 0; j < WIDTH; j++)
                next[i * WIDTH + j] =
                    next_value(now[(i + rows - 1) % rows * WIDTH + j], now[(i + 1) % rows * WIDTH + j],
                               now[i * WIDTH + (j + WIDTH - 1) % WIDTH], now[i * WIDTH + (j + 1) % WIDTH]);
        long *other = now;
        now = next;
        next = other;
    }
    for (int i = 0; i < rows * WIDTH; i++) wrong += now[i] != gathered[i];
    CHECK(wrong == 0);
    free(now);
    free(next);
}

int main(int argc, char **argv) {
    test_begin(&argc, &argv);
    for (int i = 1; i <= HEIGHT; i++)
        for (int j = 0; j < WIDTH; j++) strip[0][i][j] = start_value(test_rank * HEIGHT + i - 1, j);
    for (int turn = 0; turn < STEPS; turn++) {
        exchange(strip[turn % 2]);
        step(strip[turn % 2], strip[1 - turn % 2]);
    }
    long *all = malloc(sizeof *all * (size_t)(HEIGHT * WIDTH * test_size));
    MPI_Gather(strip[STEPS % 2][1], HEIGHT * WIDTH, MPI_LONG, all, HEIGHT * WIDTH, MPI_LONG, 0, MPI_COMM_WORLD);
    if (test_rank == 0) check_whole(all);
    free(all);
    return test_end();
}
