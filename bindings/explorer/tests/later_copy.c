/* Copies that don't wait: rank 1 begins one only once it has rank 0's message, which rank 0 sends behind its own. With an
 * argument rank 1 never begins it. */
#include <mpi.h>
#include <stdio.h>
int main(int argc, char **argv) {
    int me, size, number = 0, sum = 0, flag = 0;
    MPI_Comm copy, second;
    MPI_Request request;
    MPI_Init(&argc, &argv);
    MPI_Comm_rank(MPI_COMM_WORLD, &me);
    MPI_Comm_size(MPI_COMM_WORLD, &size);
    if (me == 1) MPI_Recv(&number, 1, MPI_INT, MPI_ANY_SOURCE, 0, MPI_COMM_WORLD, MPI_STATUS_IGNORE);
    if (me != 1 || argc == 1) MPI_Comm_idup(MPI_COMM_WORLD, &copy, &request);
    if (me == 0) MPI_Send(&me, 1, MPI_INT, 1, 0, MPI_COMM_WORLD);
    if (me != 1 || argc == 1) {
        MPI_Allreduce(&me, &sum, 1, MPI_INT, MPI_SUM, MPI_COMM_WORLD);
        MPI_Wait(&request, MPI_STATUS_IGNORE);
        MPI_Comm_idup(copy, &second, &request);
        MPI_Allreduce(&me, &number, 1, MPI_INT, MPI_SUM, copy);
        while (!flag) MPI_Test(&request, &flag, MPI_STATUS_IGNORE);
        MPI_Barrier(second);
        if (sum != size * (size - 1) / 2 || number != sum) printf("WRONG\n");
        MPI_Comm_free(&copy);
        MPI_Comm_free(&second);
    }
    MPI_Finalize();
}
