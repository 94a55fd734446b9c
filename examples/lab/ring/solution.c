/* Four ranks pass their rows round a ring, so that each adds up all of them: 'ring 1' with rows of one number, 'ring'
 * with rows of 100,000. */
#include <mpi.h>
#include <stdio.h>
#include <stdlib.h>
#include <string.h>

int main(int argc, char **argv) {
    int rank, size;
    MPI_Init(&argc, &argv);
    MPI_Comm_rank(MPI_COMM_WORLD, &rank);
    MPI_Comm_size(MPI_COMM_WORLD, &size);
    const int count = argc > 1 ? atoi(argv[1]) : 100000;
    const int right = (rank + 1) % size, left = (rank + size - 1) % size;
    int *row = malloc(count * sizeof *row), *next = malloc(count * sizeof *next);
    long sum = 0;
    for (int i = 0; i < count; i++) row[i] = rank + 1;
    for (int step = 0; step < size; step++) {
        for (int i = 0; i < count; i++) sum += row[i];
        MPI_Sendrecv(row, count, MPI_INT, right, 0, next, count, MPI_INT, left, 0, MPI_COMM_WORLD, MPI_STATUS_IGNORE);
        memcpy(row, next, count * sizeof *row);
    }
    printf("rank %d: the mean of all rows is %.2f\n", rank, (double)sum / count / size);
    free(row);
    free(next);
    MPI_Finalize();
    return 0;
}
