/* Right: each of two tests may say no once where its message is there: four results are told. */
#include <mpi.h>
#include <stdio.h>
int main(int n, char **v) {
    int me, a = 7, b = 7, flag = 0, noes = 0, second = 0;
    MPI_Request r, s;
    MPI_Init(&n, &v);
    MPI_Comm_rank(MPI_COMM_WORLD, &me);
    if (me == 0) {
        MPI_Irecv(&a, 1, MPI_INT, 1, 0, MPI_COMM_WORLD, &r);
        MPI_Irecv(&b, 1, MPI_INT, 2, 0, MPI_COMM_WORLD, &s);
        for (MPI_Test(&r, &flag, MPI_STATUS_IGNORE); !flag; MPI_Test(&r, &flag, MPI_STATUS_IGNORE)) noes++;
        for (flag = 0; MPI_Test(&s, &flag, MPI_STATUS_IGNORE), !flag;) second++;
        printf("%d times no, then %d times no\n", noes, second);
    } else {
        MPI_Send(&a, 1, MPI_INT, 0, 0, MPI_COMM_WORLD);
    }
    MPI_Finalize();
}
