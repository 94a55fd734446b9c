/* A master and two workers. Each worker has two squares to compute, and sends the master which one it did and what it
 * is; the master takes four results from whoever is ready, and prints the table. */
#include <mpi.h>
#include <stdio.h>

enum { TASKS = 4, INDEX, VALUE };

static void work(int rank) {
    for (int task = rank - 1; task < TASKS; task += 2) {
        int value = (task + 1) * (task + 1);
        MPI_Send(&task, 1, MPI_INT, 0, INDEX, MPI_COMM_WORLD);
        MPI_Send(&value, 1, MPI_INT, 0, VALUE, MPI_COMM_WORLD);
    }
}

static void collect(void) {
    int table[TASKS] = {0};
    for (int i = 0; i < TASKS; i++) {
        int task, value;
        MPI_Recv(&task, 1, MPI_INT, MPI_ANY_SOURCE, INDEX, MPI_COMM_WORLD, MPI_STATUS_IGNORE);
        MPI_Recv(&value, 1, MPI_INT, MPI_ANY_SOURCE, VALUE, MPI_COMM_WORLD, MPI_STATUS_IGNORE);
        table[task] = value;
    }
    for (int task = 0; task < TASKS; task++) printf("the square of %d is %d\n", task + 1, table[task]);
}

int main(int argc, char **argv) {
    int rank;
    MPI_Init(&argc, &argv);
    MPI_Comm_rank(MPI_COMM_WORLD, &rank);
    if (rank == 0) collect();
    else work(rank);
    MPI_Finalize();
    return 0;
}
