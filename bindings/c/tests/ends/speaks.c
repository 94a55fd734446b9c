/* Lines and prompts, which are to be seen as they are printed. Its word says which. */
#include <mpi.h>

#include <signal.h>
#include <stdio.h>
#include <stdlib.h>
#include <string.h>
#include <unistd.h>

static int rank;

/* Prints lines with time between them, by several functions, one of which looks only whether its room is full. */
static void speak_on(void) {
    if (rank != 0) return;
    printf("one %d\n", 1);
    sleep(1);
    puts("two");
    sleep(1);
    fputs("three", stdout);
    putchar('\n');
    sleep(1);
}

/* Asks for a number, which comes once the prompt was seen. */
static void ask(int flushes) {
    int number = 0;
    if (rank == 0) {
        printf("n: ");
        if (flushes) fflush(stdout);
        if (scanf("%d", &number) != 1) number = -1;
    }
    MPI_Bcast(&number, 1, MPI_INT, 0, MPI_COMM_WORLD);
    printf("rank %d has %d\n", rank, number);
}

/* What was printed stays, whatever ends rank 0 once all have printed. */
static void end_by(const char *what) {
    printf("line of %d\n", rank);
    int size;
    MPI_Comm_size(MPI_COMM_WORLD, &size);
    if (rank != 0) MPI_Send(NULL, 0, MPI_INT, 0, 0, MPI_COMM_WORLD);
    for (int it = 1; rank == 0 && it < size; it++) MPI_Recv(NULL, 0, MPI_INT, it, 0, MPI_COMM_WORLD, MPI_STATUS_IGNORE);
    if (rank == 0 && strcmp(what, "crash") == 0) raise(SIGSEGV);
    if (rank == 0 && strcmp(what, "kill") == 0) raise(SIGKILL);
    if (rank == 0 && strcmp(what, "abort") == 0) MPI_Abort(MPI_COMM_WORLD, 9);
    if (rank == 0 && strcmp(what, "error") == 0) MPI_Send(NULL, 0, MPI_INT, 99, 0, MPI_COMM_WORLD);
}

int main(int argc, char **argv) {
    const char *what = argc > 1 ? argv[1] : "";
    /* What stands in the room of libc when MPI begins, and what was said of the room. */
    if (strcmp(what, "before") == 0) printf("before\n"), fflush(stdout);
    if (strcmp(what, "dots") == 0) setvbuf(stdout, NULL, _IONBF, 0);
    MPI_Init(&argc, &argv);
    MPI_Comm_rank(MPI_COMM_WORLD, &rank);
    if (strcmp(what, "lines") == 0 || strcmp(what, "before") == 0) speak_on();
    else if (strcmp(what, "prompt") == 0) ask(1);
    else if (strcmp(what, "quiet_prompt") == 0) ask(0);
    else if (strcmp(what, "dots") == 0) putchar('.'), putchar('.'), sleep(1), puts("done");
    else end_by(what);
    MPI_Finalize();
    return 0;
}
