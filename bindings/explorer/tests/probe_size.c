/* Right: probes any source, makes room for the message, and receives it by the source and tag that the probe told. */
#include <mpi.h>
#include <stdlib.h>
int main(int n, char **v) {
    int me, size, count;
    MPI_Status s;
    MPI_Init(&n, &v);
    MPI_Comm_rank(MPI_COMM_WORLD, &me);
    MPI_Comm_size(MPI_COMM_WORLD, &size);
    if (me == 0) {
        for (int i = 1; i < size; i++) {
            MPI_Probe(MPI_ANY_SOURCE, MPI_ANY_TAG, MPI_COMM_WORLD, &s);
            MPI_Get_count(&s, MPI_INT, &count);
            int *room = malloc((size_t)count * sizeof *room);
            MPI_Recv(room, count, MPI_INT, s.MPI_SOURCE, s.MPI_TAG, MPI_COMM_WORLD, MPI_STATUS_IGNORE);
            free(room);
        }
    } else {
        int *all = calloc((size_t)me, sizeof *all);
        MPI_Send(all, me, MPI_INT, 0, me, MPI_COMM_WORLD);
        free(all);
    }
    MPI_Finalize();
}
