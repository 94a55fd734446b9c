/* Faulty: the last send isn't received; it is made by a function of the program's own, which is told with its caller. */
#include <mpi.h>
static void hand_over(int value, int to) { MPI_Send(&value, 1, MPI_INT, to, 4, MPI_COMM_WORLD); }
int main(int n, char **v) {
    int me;
    MPI_Init(&n, &v);
    MPI_Comm_rank(MPI_COMM_WORLD, &me);
    if (me == 0) hand_over(7, 1);
    MPI_Finalize();
}
