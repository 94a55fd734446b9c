/* A rank that computes for a while without any call is waited for, and nothing is lost meanwhile (MPI 3.1, 3.5
 * and 8.7). */
#include "test.h"

enum { LENGTH = 200000 };

int main(int argc, char **argv) {
    static int row[LENGTH];
    int number = 3;
    MPI_Request request;
    test_begin(&argc, &argv);
    if (test_rank == 0) {
        for (int i = 0; i < LENGTH; i++) row[i] = i;
        MPI_Isend(row, LENGTH, MPI_INT, 1, 0, MPI_COMM_WORLD, &request);
        MPI_Ssend(&number, 1, MPI_INT, 1, 1, MPI_COMM_WORLD);
        MPI_Wait(&request, MPI_STATUS_IGNORE);
    } else if (test_rank == 1) {
        double until = MPI_Wtime() + 0.7;
        int wrong = 0;
        while (MPI_Wtime() < until) {}
        MPI_Recv(row, LENGTH, MPI_INT, 0, 0, MPI_COMM_WORLD, MPI_STATUS_IGNORE);
        MPI_Recv(&number, 1, MPI_INT, 0, 1, MPI_COMM_WORLD, MPI_STATUS_IGNORE);
        for (int i = 0; i < LENGTH; i++) wrong += row[i] != i;
        CHECK(wrong == 0 && number == 3);
    }
    MPI_Barrier(MPI_COMM_WORLD);
    return test_end();
}
