/* Right, and too long for the explorer: more communicators, each freed, than one engine makes. */
#include <mpi.h>
int main(int n, char **v) {
    MPI_Comm copy;
    MPI_Init(&n, &v);
    for (int i = 0; i < 4100; i++) {
        MPI_Comm_dup(MPI_COMM_WORLD, &copy);
        MPI_Comm_free(&copy);
    }
    MPI_Finalize();
}
