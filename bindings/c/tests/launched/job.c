/* A rank as the launchers of sites start it (tools/rows/pmi_rows): each sends to the next one, all add up, and the last
 * one ends as the first word says. */
#define _GNU_SOURCE
#include <mpi.h>

#include <errno.h>
#include <fcntl.h>
#include <signal.h>
#include <stdio.h>
#include <stdlib.h>
#include <string.h>
#include <sys/wait.h>
#include <unistd.h>

static int rank, size;

static void talk(void) {
    int left = -1, sum = -1;
    MPI_Sendrecv(&rank, 1, MPI_INT, (rank + 1) % size, 5, &left, 1, MPI_INT, (rank + size - 1) % size, 5,
                 MPI_COMM_WORLD, MPI_STATUS_IGNORE);
    MPI_Allreduce(&rank, &sum, 1, MPI_INT, MPI_SUM, MPI_COMM_WORLD);
    printf("rank %d of %d: left %d, sum %d\n", rank, size, left, sum);
}

/* Starts this program as a child that speaks MPI, and says how it ended. */
static void start_child(char *own, char *wire) {
    int status = -1;
    pid_t child = fork();
    if (child == 0) {
        execl(own, own, "child", wire, (char *)NULL);
        _exit(99);
    }
    waitpid(child, &status, 0);
    printf("rank %d: its child ended with %d\n", rank, WIFEXITED(status) ? WEXITSTATUS(status) : -1);
}

/* What a child of a rank finds: the place of its own job, which variables it has, and whether it has the wire. */
static void tell_child(const char *wire) {
    printf("child: rank %d of %d, the wire is %s\n", rank, size,
           fcntl(atoi(wire), F_GETFD) < 0 && errno == EBADF ? "closed" : "open");
    for (char **it = environ; *it != NULL; it++)
        if (strncmp(*it, "PMI_", 4) == 0 || strncmp(*it, "KOMBAZILY_", 10) == 0) printf("child: %s\n", *it);
}

static int end_by(const char *word) {
    int last = size - 1;
    if (rank == last && strcmp(word, "abort") == 0) MPI_Abort(MPI_COMM_WORLD, 42);
    if (rank == last && strcmp(word, "killed") == 0) raise(SIGKILL);
    if (rank == last && strcmp(word, "exit") == 0) exit(7);
    if (rank == last && strcmp(word, "returns") == 0) return 0;
    if (rank == last && strcmp(word, "fatal") == 0) MPI_Send(&rank, 1, MPI_INT, size, 0, MPI_COMM_WORLD);
    MPI_Barrier(MPI_COMM_WORLD);
    return MPI_Finalize();
}

int main(int argc, char **argv) {
    char wire[16];
    const char *word = argc > 1 ? argv[1] : "";
    snprintf(wire, sizeof wire, "%s", getenv("PMI_FD") != NULL ? getenv("PMI_FD") : "-1");
    MPI_Init(&argc, &argv);
    MPI_Comm_rank(MPI_COMM_WORLD, &rank);
    MPI_Comm_size(MPI_COMM_WORLD, &size);
    if (strcmp(word, "child") == 0) tell_child(argv[2]);
    else if (strcmp(word, "starts") == 0) start_child(argv[0], wire);
    else talk();
    return end_by(word);
}
