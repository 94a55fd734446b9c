/* Communication with MPI_PROC_NULL ends at once, and moves nothing (MPI 3.1, 3.11 and 3.8.2). */
#include "test.h"

static int mark = 99;

/* The status of a receive from nobody. */
static void check_status(const MPI_Status *status) {
    int count = -1;
    MPI_Get_count(status, MPI_INT, &count);
    CHECK(status->MPI_SOURCE == MPI_PROC_NULL);
    CHECK(status->MPI_TAG == MPI_ANY_TAG);
    CHECK(count == 0);
    CHECK(mark == 99);
}

static void check_blocking(void) {
    MPI_Status status;
    MPI_Send(&mark, 1, MPI_INT, MPI_PROC_NULL, 1, MPI_COMM_WORLD);
    MPI_Ssend(&mark, 1, MPI_INT, MPI_PROC_NULL, 1, MPI_COMM_WORLD);
    MPI_Rsend(&mark, 1, MPI_INT, MPI_PROC_NULL, 1, MPI_COMM_WORLD);
    MPI_Recv(&mark, 1, MPI_INT, MPI_PROC_NULL, 1, MPI_COMM_WORLD, &status);
    check_status(&status);
    MPI_Recv(&mark, 1, MPI_INT, MPI_PROC_NULL, MPI_ANY_TAG, MPI_COMM_WORLD, &status);
    check_status(&status);
    int own = 5;
    MPI_Sendrecv(&own, 1, MPI_INT, MPI_PROC_NULL, 1, &mark, 1, MPI_INT, MPI_PROC_NULL, 1, MPI_COMM_WORLD, &status);
    check_status(&status);
    MPI_Sendrecv_replace(&mark, 1, MPI_INT, MPI_PROC_NULL, 1, MPI_PROC_NULL, 1, MPI_COMM_WORLD, &status);
    check_status(&status);
}

static void check_nonblocking(void) {
    MPI_Request requests[4];
    MPI_Status status;
    MPI_Isend(&mark, 1, MPI_INT, MPI_PROC_NULL, 1, MPI_COMM_WORLD, &requests[0]);
    MPI_Issend(&mark, 1, MPI_INT, MPI_PROC_NULL, 1, MPI_COMM_WORLD, &requests[1]);
    MPI_Irsend(&mark, 1, MPI_INT, MPI_PROC_NULL, 1, MPI_COMM_WORLD, &requests[2]);
    MPI_Irecv(&mark, 1, MPI_INT, MPI_PROC_NULL, 1, MPI_COMM_WORLD, &requests[3]);
    MPI_Wait(&requests[3], &status);
    check_status(&status);
    MPI_Waitall(4, requests, MPI_STATUSES_IGNORE);
}

static void check_probes(void) {
    MPI_Status status;
    MPI_Message message = MPI_MESSAGE_NULL;
    MPI_Request request;
    int flag = 0;
    MPI_Probe(MPI_PROC_NULL, 3, MPI_COMM_WORLD, &status);
    check_status(&status);
    MPI_Iprobe(MPI_PROC_NULL, 3, MPI_COMM_WORLD, &flag, &status);
    CHECK(flag);
    check_status(&status);
    MPI_Mprobe(MPI_PROC_NULL, 3, MPI_COMM_WORLD, &message, &status);
    CHECK(message == MPI_MESSAGE_NO_PROC);
    check_status(&status);
    MPI_Mrecv(&mark, 1, MPI_INT, &message, &status);
    CHECK(message == MPI_MESSAGE_NULL);
    check_status(&status);
    flag = 0;
    MPI_Improbe(MPI_PROC_NULL, 3, MPI_COMM_WORLD, &flag, &message, &status);
    CHECK(flag && message == MPI_MESSAGE_NO_PROC);
    MPI_Imrecv(&mark, 1, MPI_INT, &message, &request);
    CHECK(message == MPI_MESSAGE_NULL);
    MPI_Wait(&request, &status);
    check_status(&status);
}

int main(int argc, char **argv) {
    test_begin(&argc, &argv);
    check_blocking();
    check_nonblocking();
    check_probes();
    return test_end();
}
