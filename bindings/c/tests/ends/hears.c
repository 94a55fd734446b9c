/* Rank 1 begins so many seconds late, and then sends ten numbers to each other rank, which says whether they came. */
#define _GNU_SOURCE
#include <mpi.h>

#include <stdio.h>
#include <stdlib.h>
#include <string.h>
#include <unistd.h>

enum { COUNT = 10, FIRST = 100 };

static int hear(void) {
    int wrong = 0;
    for (int i = 0; i < COUNT; i++) {
        int number = -1;
        MPI_Recv(&number, 1, MPI_INT, 1, 7, MPI_COMM_WORLD, MPI_STATUS_IGNORE);
        wrong += number != FIRST + i;
    }
    return wrong;
}

static void speak(int size) {
    for (int rank = 0; rank < size; rank++)
        for (int i = 0; i < COUNT && rank != 1; i++) {
            int number = FIRST + i;
            MPI_Send(&number, 1, MPI_INT, rank, 7, MPI_COMM_WORLD);
        }
}

int main(int argc, char **argv) {
    const char *told = getenv("KOMBAZILY_RANK");
    int rank, size;
    if (told != NULL && strcmp(told, "1") == 0 && argc > 1) sleep((unsigned)atoi(argv[argc - 1]));
    MPI_Init(&argc, &argv);
    MPI_Comm_rank(MPI_COMM_WORLD, &rank);
    MPI_Comm_size(MPI_COMM_WORLD, &size);
    if (rank == 1) speak(size);
    else printf("%d wrong\n", hear());
    MPI_Finalize();
    return 0;
}
