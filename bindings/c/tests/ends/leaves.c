/* Ends of rank 1 while rank 0 waits for it. Its word says how. */
#include <mpi.h>

#include <stdio.h>
#include <stdlib.h>
#include <string.h>
#include <sys/wait.h>
#include <unistd.h>

static void leave(const char *how) {
    printf("rank 1 leaves\n");
    if (strcmp(how, "exit") == 0) exit(0);
    if (strcmp(how, "seven") == 0) exit(7);
    if (strcmp(how, "abort") == 0) abort();
    if (strcmp(how, "MPI_Abort") == 0) MPI_Abort(MPI_COMM_WORLD, 5);
    if (strcmp(how, "child") == 0) {
        /* A child ends, which is no rank; then the rank goes on. */
        pid_t child = fork();
        if (child == 0) exit(0);
        int status = -1;
        waitpid(child, &status, 0);
        printf("the child's status is %d\n", status);
        MPI_Send(NULL, 0, MPI_INT, 0, 0, MPI_COMM_WORLD);
        MPI_Finalize();
        exit(0);
    }
}

/* Rank 1 ends before MPI_Init, or all ranks do. */
static void leave_early(const char *how) {
    const char *told = getenv("KOMBAZILY_RANK");
    if (strcmp(how, "help") == 0) exit(0);
    if (told == NULL || strcmp(told, "1") != 0) return;
    if (strcmp(how, "never") == 0) exit(0);
    if (strcmp(how, "lacks") == 0) exit(3);
}

int main(int argc, char **argv) {
    int rank = -1, size;
    leave_early(argc > 1 ? argv[1] : "");
    if (argc > 1 && strcmp(argv[1], "early") == 0) MPI_Comm_rank(MPI_COMM_WORLD, &rank);
    MPI_Init(&argc, &argv);
    MPI_Comm_rank(MPI_COMM_WORLD, &rank);
    MPI_Comm_size(MPI_COMM_WORLD, &size);
    if (rank == 1 || size == 1) {
        leave(argc > 1 ? argv[1] : "");
        return 0;
    }
    MPI_Recv(NULL, 0, MPI_INT, 1, 0, MPI_COMM_WORLD, MPI_STATUS_IGNORE);
    MPI_Finalize();
    return 0;
}
