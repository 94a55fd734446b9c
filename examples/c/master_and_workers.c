/* Rank 0 hands numbers out to whoever is ready, and takes the results from any source; the others count divisors.
 *
 *   ./run -n 4 examples/c/master_and_workers.c
 */
#include <mpi.h>
#include <stdio.h>

enum { MOST = 2000, READY, DONE, WORK, STOP };

static void lead(int workers) {
    int next = 1, best[2] = {0, 0}, result[2];
    while (workers > 0) {
        MPI_Status status;
        MPI_Recv(result, 2, MPI_INT, MPI_ANY_SOURCE, MPI_ANY_TAG, MPI_COMM_WORLD, &status);
        if (status.MPI_TAG == DONE && (result[1] > best[1] || (result[1] == best[1] && result[0] < best[0]))) {
            best[0] = result[0];
            best[1] = result[1];
        }
        MPI_Send(&next, 1, MPI_INT, status.MPI_SOURCE, next <= MOST ? WORK : STOP, MPI_COMM_WORLD);
        if (next <= MOST) next++;
        else workers--;
    }
    printf("the first number up to %d with most divisors is %d: it has %d\n", MOST, best[0], best[1]);
}

static void work(void) {
    int result[2] = {0, 0};
    MPI_Send(result, 2, MPI_INT, 0, READY, MPI_COMM_WORLD);
    for (;;) {
        MPI_Status status;
        MPI_Recv(&result[0], 1, MPI_INT, 0, MPI_ANY_TAG, MPI_COMM_WORLD, &status);
        if (status.MPI_TAG == STOP) return;
        result[1] = 0;
        for (int i = 1; i <= result[0]; i++) result[1] += result[0] % i == 0;
        MPI_Send(result, 2, MPI_INT, 0, DONE, MPI_COMM_WORLD);
    }
}

int main(int argc, char **argv) {
    int rank, size;
    MPI_Init(&argc, &argv);
    MPI_Comm_rank(MPI_COMM_WORLD, &rank);
    MPI_Comm_size(MPI_COMM_WORLD, &size);
    if (rank == 0) lead(size - 1);
    else work();
    MPI_Finalize();
    return 0;
}
