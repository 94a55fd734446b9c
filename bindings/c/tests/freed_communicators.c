/* An operation that is open keeps its communicator, which the program has freed: its error is told to the handler that
 * the communicator had (MPI 3.1, 6.4.3 and 8.3), not to that of MPI_COMM_WORLD or of one that came later. */
#include "test.h"

/* A copy whose handler returns, with a message on the way that is longer than its receive. */
static void begin(MPI_Request *request, char *row) {
    MPI_Comm comm;
    MPI_Comm_dup(MPI_COMM_WORLD, &comm);
    MPI_Comm_set_errhandler(comm, MPI_ERRORS_RETURN);
    if (test_rank == 0) MPI_Isend(row, 8, MPI_BYTE, 1, 3, comm, request);
    else MPI_Irecv(row, 4, MPI_BYTE, 0, 3, comm, request);
    MPI_Comm_free(&comm);
}

int main(int argc, char **argv) {
    test_begin(&argc, &argv);
    char row[2][8] = {{0}};
    MPI_Request requests[2];
    MPI_Status statuses[2];
    MPI_Message message;
    MPI_Comm comm, later;
    /* One, which another communicator may take the place of, whose handler is fatal. */
    begin(requests, row[0]);
    MPI_Comm_dup(MPI_COMM_SELF, &later);
    int class = class_of(MPI_Wait(requests, statuses));
    CHECK(class == (test_rank == 0 ? MPI_SUCCESS : MPI_ERR_TRUNCATE));
    /* A list. */
    for (int i = 0; i < 2; i++) begin(&requests[i], row[i]);
    class = class_of(MPI_Waitall(2, requests, statuses));
    CHECK(class == (test_rank == 0 ? MPI_SUCCESS : MPI_ERR_IN_STATUS));
    CHECK(test_rank == 0 || class_of(statuses[1].MPI_ERROR) == MPI_ERR_TRUNCATE);
    /* A message that was taken out. */
    MPI_Comm_dup(MPI_COMM_WORLD, &comm);
    MPI_Comm_set_errhandler(comm, MPI_ERRORS_RETURN);
    if (test_rank == 0) MPI_Send(row, 8, MPI_BYTE, 1, 4, comm);
    else MPI_Mprobe(0, 4, comm, &message, MPI_STATUS_IGNORE);
    MPI_Comm_free(&comm);
    if (test_rank == 1) CHECK(class_of(MPI_Mrecv(row, 4, MPI_BYTE, &message, statuses)) == MPI_ERR_TRUNCATE);
    MPI_Comm_free(&later);
    return test_end();
}
