/* Wrong: never ends. By its first word all meet for ever, two play ping-pong for ever while a third one waits, a master
 * never stops its workers, one computes for ever, or all that only where rank 2's message comes first. */
#include <mpi.h>
#include <string.h>
static void meet(void) {
    for (;;) MPI_Barrier(MPI_COMM_WORLD);
}
static void play(int me) {
    int v = 0, peer = me == 2 ? 0 : 1 - me;
    for (;;) {
        if (me == 0) MPI_Send(&v, 1, MPI_INT, peer, 0, MPI_COMM_WORLD);
        MPI_Recv(&v, 1, MPI_INT, peer, 0, MPI_COMM_WORLD, MPI_STATUS_IGNORE);
        if (me == 1) MPI_Send(&v, 1, MPI_INT, peer, 0, MPI_COMM_WORLD);
    }
}
static void serve(int me) {
    int v = 0;
    MPI_Status status;
    MPI_Request request;
    for (;;) {
        if (me == 0) {
            MPI_Recv(&v, 1, MPI_INT, MPI_ANY_SOURCE, 0, MPI_COMM_WORLD, &status);
            MPI_Send(&v, 1, MPI_INT, status.MPI_SOURCE, 0, MPI_COMM_WORLD);
        } else {
            MPI_Isend(&v, 1, MPI_INT, 0, 0, MPI_COMM_WORLD, &request);
            MPI_Recv(&v, 1, MPI_INT, 0, 0, MPI_COMM_WORLD, MPI_STATUS_IGNORE);
            MPI_Wait(&request, MPI_STATUS_IGNORE);
        }
    }
}
static void branch(int me) {
    int from = 0;
    if (me != 0) MPI_Send(&me, 1, MPI_INT, 0, 1, MPI_COMM_WORLD);
    if (me == 0) MPI_Recv(&from, 1, MPI_INT, MPI_ANY_SOURCE, 1, MPI_COMM_WORLD, MPI_STATUS_IGNORE);
    MPI_Bcast(&from, 1, MPI_INT, 0, MPI_COMM_WORLD);
    if (from == 2) meet();
    if (me == 0) MPI_Recv(&from, 1, MPI_INT, MPI_ANY_SOURCE, 1, MPI_COMM_WORLD, MPI_STATUS_IGNORE);
}
int main(int argc, char **argv) {
    int me;
    const char *how = argc > 1 ? argv[1] : "meets";
    MPI_Init(&argc, &argv);
    MPI_Comm_rank(MPI_COMM_WORLD, &me);
    if (strcmp(how, "plays") == 0) play(me);
    if (strcmp(how, "serves") == 0) serve(me);
    if (strcmp(how, "branches") == 0) branch(me);
    if (strcmp(how, "meets") == 0) meet();
    if (strcmp(how, "computes") == 0) {
        for (volatile int i = 0; me == 1;) i = 1 - i;
    }
    MPI_Finalize();
}
