/* A collective that doesn't wait, of which rank 1 wants more than rank 0 gives: errors are fatal. The word says which
 * call ends its request. */
#include <mpi.h>

#include <string.h>

static void end(const char *how, MPI_Request *request) {
    MPI_Status status;
    int flag = 0, count = 0, place;
    if (strcmp(how, "Wait") == 0) MPI_Wait(request, &status);
    while (strcmp(how, "Test") == 0 && !flag) MPI_Test(request, &flag, MPI_STATUS_IGNORE);
    if (strcmp(how, "Waitany") == 0) MPI_Waitany(1, request, &place, &status);
    if (strcmp(how, "Waitall") == 0) MPI_Waitall(1, request, MPI_STATUSES_IGNORE);
    while (strcmp(how, "Testsome") == 0 && count == 0) MPI_Testsome(1, request, &count, &place, &status);
    while (strcmp(how, "Request_get_status") == 0 && !flag) MPI_Request_get_status(*request, &flag, &status);
}

/* Rank 0 gives it once this rank has let its request go. */
static void let_go(MPI_Request *request) {
    MPI_Request_free(request);
    MPI_Send(NULL, 0, MPI_INT, 0, 0, MPI_COMM_WORLD);
    MPI_Barrier(MPI_COMM_WORLD);
}

int main(int argc, char **argv) {
    int row[10] = {0}, rank;
    MPI_Request request;
    MPI_Init(&argc, &argv);
    MPI_Comm_rank(MPI_COMM_WORLD, &rank);
    const char *how = argc > 1 ? argv[1] : "Wait";
    const int is_free = strncmp(how, "Request_free", 12) == 0;
    if (rank == 0 && is_free) MPI_Recv(NULL, 0, MPI_INT, 1, 0, MPI_COMM_WORLD, MPI_STATUS_IGNORE);
    if (strcmp(how, "Request_free_receive") != 0)
        MPI_Ibcast(row, rank == 0 ? 1 : 10, MPI_INT, 0, MPI_COMM_WORLD, &request);
    else if (rank == 0) MPI_Isend(row, 10, MPI_INT, 1, 1, MPI_COMM_WORLD, &request);
    else MPI_Irecv(row, 1, MPI_INT, 0, 1, MPI_COMM_WORLD, &request);
    if (rank == 0) MPI_Wait(&request, MPI_STATUS_IGNORE);
    else if (is_free) let_go(&request);
    else end(how, &request);
    MPI_Barrier(MPI_COMM_WORLD);
    MPI_Finalize();
    return 0;
}
