/* Rank 1 begins late; rank 0 sends to it at once, and then is in no call for long. With a word rank 1 begins later than
 * rank 0 waits for it, and rank 0 waits in a call. */
#define _GNU_SOURCE
#include <mpi.h>

#include <stdio.h>
#include <stdlib.h>
#include <string.h>
#include <time.h>

int main(int argc, char **argv) {
    /* Told by mpirun, before MPI_Init can be asked. */
    const char *told = getenv("KOMBAZILY_RANK");
    const int is_late = told != NULL && strcmp(told, "1") == 0;
    const struct timespec begins = {.tv_sec = argc > 1 ? 3 : 0, .tv_nsec = 400000000}, computes = {.tv_sec = 2};
    int number = 7;
    if (is_late) nanosleep(&begins, NULL);
    MPI_Init(&argc, &argv);
    double begun = MPI_Wtime();
    if (is_late) {
        MPI_Recv(&number, 1, MPI_INT, 0, 0, MPI_COMM_WORLD, MPI_STATUS_IGNORE);
        puts(MPI_Wtime() - begun < 1 ? "it came soon" : "it came late");
    } else {
        MPI_Send(&number, 1, MPI_INT, 1, 0, MPI_COMM_WORLD);
        if (argc == 1) nanosleep(&computes, NULL);
    }
    MPI_Finalize();
    return 0;
}
