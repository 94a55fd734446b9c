/* Faulty: rank 0 takes it for sure that its first MPI_Waitsome ends one of its three receives, or all. With a word
 * behind the program it asks by MPI_Testsome; with a number there are so many receives. */
#include <mpi.h>
#include <stdlib.h>

enum { MOST = 12 };

int main(int n, char **v) {
    int me, in[MOST], which[MOST], some = 0, size, count;
    MPI_Request q[MOST];
    MPI_Init(&n, &v);
    MPI_Comm_rank(MPI_COMM_WORLD, &me);
    MPI_Comm_size(MPI_COMM_WORLD, &size);
    count = n > 1 && atoi(v[1]) > 0 ? atoi(v[1]) : size - 1;
    for (int i = 0; i < count && me == 0; i++)
        MPI_Irecv(&in[i], 1, MPI_INT, 1 + i % (size - 1), i, MPI_COMM_WORLD, &q[i]);
    for (int i = 0; i < count && me > 0; i++)
        if (1 + i % (size - 1) == me) MPI_Send(&me, 1, MPI_INT, 0, i, MPI_COMM_WORLD);
    if (me == 0) {
        if (n == 1 || count != 3) MPI_Waitsome(count, q, &some, which, MPI_STATUSES_IGNORE);
        else while (some == 0) MPI_Testsome(count, q, &some, which, MPI_STATUSES_IGNORE);
        if (some == 2) MPI_Recv(in, 1, MPI_INT, 1, 99, MPI_COMM_WORLD, MPI_STATUS_IGNORE);
        MPI_Waitall(count, q, MPI_STATUSES_IGNORE);
    }
    MPI_Finalize();
}
