/* Members of collectives that go by sends and receives differ: argument 1 says in what. */
#include <mpi.h>
#include <stdlib.h>
static void last_one(void *in, void *all, int *count, MPI_Datatype *type) { (void)in, (void)all, (void)count, (void)type; }
int main(int argc, char **argv) {
    int me, size, how = argc > 1 ? atoi(argv[1]) : 0, mine[8] = {1, 2, 3, 4, 5, 6, 7, 8}, all[8], counts[8], places[8];
    MPI_Init(&argc, &argv);
    MPI_Comm_rank(MPI_COMM_WORLD, &me);
    MPI_Comm_size(MPI_COMM_WORLD, &size);
    for (int i = 0; i < 8; i++) counts[i] = 1, places[i] = i;
    const int last = me == size - 1;
    if (how == 0) MPI_Scan(mine, all, 1, MPI_INT, last ? MPI_MAX : MPI_SUM, MPI_COMM_WORLD);
    if (how == 1) MPI_Exscan(mine, all, last ? 2 : 1, MPI_INT, MPI_SUM, MPI_COMM_WORLD);
    if (how == 2) MPI_Reduce_scatter_block(mine, all, 1, MPI_INT, last ? MPI_MIN : MPI_SUM, MPI_COMM_WORLD);
    if (how == 3) MPI_Gatherv(mine, 1, MPI_INT, all, counts, places, MPI_INT, last ? 1 : 0, MPI_COMM_WORLD);
    if (how == 4 && !last) MPI_Gather(mine, 1, MPI_INT, all, 1, MPI_INT, 0, MPI_COMM_WORLD);
    if (how == 4 && last) MPI_Gatherv(mine, 1, MPI_INT, all, counts, places, MPI_INT, 0, MPI_COMM_WORLD);
    if (how == 5) MPI_Gatherv(mine, last ? 2 : 1, MPI_INT, all, counts, places, MPI_INT, 0, MPI_COMM_WORLD);
    if (how == 6) MPI_Alltoall(mine, 1, last ? MPI_FLOAT : MPI_INT, all, 1, last ? MPI_FLOAT : MPI_INT, MPI_COMM_WORLD);
    if (how == 7 && !last) MPI_Scan(mine, all, 1, MPI_INT, MPI_SUM, MPI_COMM_WORLD);
    if (how == 7 && last) MPI_Exscan(mine, all, 1, MPI_INT, MPI_SUM, MPI_COMM_WORLD);
    if (how == 8 && !last) MPI_Scan(mine, all, 1, MPI_INT, MPI_SUM, MPI_COMM_WORLD);
    if (how == 9) MPI_Scatterv(mine, counts, places, MPI_INT, all, last ? 2 : 1, MPI_INT, 0, MPI_COMM_WORLD);
    if (how == 10 && me == 0) MPI_Bcast(mine, 1, MPI_INT, 0, MPI_COMM_WORLD);
    if (how == 11) {
        MPI_Op own;
        MPI_Op_create(last_one, 1, &own);
        MPI_Allreduce(mine, all, 1, MPI_INT, last ? own : MPI_SUM, MPI_COMM_WORLD);
        MPI_Op_free(&own);
    }
    MPI_Finalize();
}
