/* Faulty, but for the barrier and the sum for all: rank 2 takes a note of rank 0 or 3 before it enters a collective, and
 * takes it for sure that rank 3's is the first. Rank 0 sends its own once it has left the collective, which it may do
 * before rank 2 is there, as it needs nothing of that rank (MPI 3.1, 5.1). The word behind the program names it. */
#include <mpi.h>
#include <string.h>

static const char *what;

static int is(const char *word) { return strcmp(what, word) == 0; }

static void meet(void) {
    int own = 1, sum, all[4] = {0};
    MPI_Request open;
    if (is("reduce")) MPI_Reduce(&own, &sum, 1, MPI_INT, MPI_SUM, 2, MPI_COMM_WORLD);
    if (is("reduce_elsewhere")) MPI_Reduce(&own, &sum, 1, MPI_INT, MPI_SUM, 1, MPI_COMM_WORLD);
    if (is("gather")) MPI_Gather(&own, 1, MPI_INT, all, 1, MPI_INT, 2, MPI_COMM_WORLD);
    if (is("bcast")) MPI_Bcast(all, 4, MPI_INT, 1, MPI_COMM_WORLD);
    if (is("scatter")) MPI_Scatter(all, 1, MPI_INT, &own, 1, MPI_INT, 1, MPI_COMM_WORLD);
    if (is("scan")) MPI_Scan(&own, &sum, 1, MPI_INT, MPI_SUM, MPI_COMM_WORLD);
    if (is("ireduce")) {
        MPI_Ireduce(&own, &sum, 1, MPI_INT, MPI_SUM, 2, MPI_COMM_WORLD, &open);
        MPI_Wait(&open, MPI_STATUS_IGNORE);
    }
    if (is("barrier")) MPI_Barrier(MPI_COMM_WORLD);
    if (is("allreduce")) MPI_Allreduce(&own, &sum, 1, MPI_INT, MPI_SUM, MPI_COMM_WORLD);
}

int main(int n, char **v) {
    int me, note;
    MPI_Status came;
    MPI_Init(&n, &v);
    MPI_Comm_rank(MPI_COMM_WORLD, &me);
    what = v[1];
    if (me == 3) MPI_Send(&me, 1, MPI_INT, 2, 5, MPI_COMM_WORLD);
    if (me == 2) {
        MPI_Recv(&note, 1, MPI_INT, MPI_ANY_SOURCE, 5, MPI_COMM_WORLD, &came);
        if (came.MPI_SOURCE == 0) MPI_Abort(MPI_COMM_WORLD, 3);
    }
    meet();
    if (me == 0) MPI_Send(&me, 1, MPI_INT, 2, 5, MPI_COMM_WORLD);
    if (me == 2) MPI_Recv(&note, 1, MPI_INT, MPI_ANY_SOURCE, 5, MPI_COMM_WORLD, &came);
    MPI_Finalize();
}
