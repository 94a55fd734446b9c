/* Collectives that don't wait, used rightly: several at once, beside messages and other collectives, tested, and waited
 * for in lists. */
#include <mpi.h>
#include <stdio.h>
#include <stdlib.h>
static int me, size;
static void need(int is_right, const char *what) {
    if (!is_right) printf("WRONG %s\n", what);
}
static void reductions(void) {
    int one = me + 1, sum = 0, scan = 0, before = -1, least = 0, root = -1;
    MPI_Request requests[5];
    MPI_Iallreduce(&one, &sum, 1, MPI_INT, MPI_SUM, MPI_COMM_WORLD, &requests[0]);
    MPI_Iscan(&one, &scan, 1, MPI_INT, MPI_SUM, MPI_COMM_WORLD, &requests[1]);
    MPI_Iexscan(&one, &before, 1, MPI_INT, MPI_SUM, MPI_COMM_WORLD, &requests[2]);
    MPI_Ireduce(&one, &root, 1, MPI_INT, MPI_MAX, size - 1, MPI_COMM_WORLD, &requests[3]);
    least = one;
    MPI_Iallreduce(MPI_IN_PLACE, &least, 1, MPI_INT, MPI_MIN, MPI_COMM_WORLD, &requests[4]);
    MPI_Barrier(MPI_COMM_WORLD);
    MPI_Waitall(5, requests, MPI_STATUSES_IGNORE);
    need(sum == size * (size + 1) / 2 && scan == (me + 1) * (me + 2) / 2 && least == 1, "reductions");
    need(me == 0 || before == me * (me + 1) / 2, "exscan");
    need(me != size - 1 || root == size, "reduce");
}
/* Rank 0 waits for a message of rank 1's, which waits for the broadcast of rank 0. */
static void beside_messages(void) {
    int number = me == 0 ? 42 : 0, flag = 0, other = 0;
    MPI_Request request;
    MPI_Ibcast(&number, 1, MPI_INT, 0, MPI_COMM_WORLD, &request);
    if (me == 0) MPI_Recv(&other, 1, MPI_INT, 1, 5, MPI_COMM_WORLD, MPI_STATUS_IGNORE);
    while (!flag) MPI_Test(&request, &flag, MPI_STATUS_IGNORE);
    if (me == 1) MPI_Send(&number, 1, MPI_INT, 0, 5, MPI_COMM_WORLD);
    need(number == 42 && (me != 0 || other == 42), "broadcast");
}
static void lists(void) {
    int mine[8], all[8], block[8], place, left = 3;
    MPI_Request requests[3];
    for (int i = 0; i < size; i++) mine[i] = 10 * me + i;
    MPI_Ialltoall(mine, 1, MPI_INT, all, 1, MPI_INT, MPI_COMM_WORLD, &requests[0]);
    MPI_Ibarrier(MPI_COMM_WORLD, &requests[1]);
    MPI_Iallgather(&me, 1, MPI_INT, block, 1, MPI_INT, MPI_COMM_WORLD, &requests[2]);
    for (; left > 0; left--) MPI_Waitany(3, requests, &place, MPI_STATUS_IGNORE);
    for (int i = 0; i < size; i++) need(all[i] == 10 * i + me && block[i] == i, "exchange");
}
int main(int argc, char **argv) {
    MPI_Init(&argc, &argv);
    MPI_Comm_rank(MPI_COMM_WORLD, &me);
    MPI_Comm_size(MPI_COMM_WORLD, &size);
    reductions();
    beside_messages();
    if (argc > 1) lists();
    MPI_Finalize();
}
