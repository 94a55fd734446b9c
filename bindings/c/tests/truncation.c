/* A message that is longer than its receive is an error of the receive, and is used up (MPI 3.1, 3.2.2 and 3.7.5). */
#include "test.h"

enum { SHORT = 10, LONG = 50000 };

static int row[LONG];

static void send_pair(int length, int tag) {
    for (int i = 0; i < length; i++) row[i] = tag;
    MPI_Send(row, length, MPI_INT, 1, tag, MPI_COMM_WORLD);
    MPI_Send(&tag, 1, MPI_INT, 1, tag, MPI_COMM_WORLD);
}

/* The next message with this tag is there, and is the next one. */
static void check_next(int tag) {
    int next = -1, count = -1;
    MPI_Status status;
    CHECK(MPI_Recv(&next, 1, MPI_INT, 0, tag, MPI_COMM_WORLD, &status) == MPI_SUCCESS);
    MPI_Get_count(&status, MPI_INT, &count);
    CHECK(next == tag && count == 1);
}

static void check_blocking(int tag) {
    MPI_Status status;
    int into[SHORT + 1];
    into[SHORT - 1] = into[SHORT] = -5;
    CHECK(class_of(MPI_Recv(into, SHORT - 1, MPI_INT, 0, tag, MPI_COMM_WORLD, &status)) == MPI_ERR_TRUNCATE);
    CHECK(into[SHORT - 1] == -5 && into[SHORT] == -5);
    CHECK(status.MPI_SOURCE == 0 && status.MPI_TAG == tag);
    check_next(tag);
}

static void check_one_request(int tag) {
    MPI_Request request;
    int into = -1, code = MPI_SUCCESS, flag = 0;
    MPI_Irecv(&into, 1, MPI_INT, 0, tag, MPI_COMM_WORLD, &request);
    while (!flag && code == MPI_SUCCESS) code = MPI_Test(&request, &flag, MPI_STATUS_IGNORE);
    CHECK(class_of(code) == MPI_ERR_TRUNCATE && request == MPI_REQUEST_NULL);
    check_next(tag);
}

/* Of a list one fails: MPI_ERR_IN_STATUS, and each status says what became of its request. */
static void check_list(int tag) {
    MPI_Request requests[2];
    MPI_Status statuses[2];
    int into[2] = {-1, -1};
    for (int i = 0; i < 2; i++) MPI_Irecv(&into[i], 1, MPI_INT, 0, tag, MPI_COMM_WORLD, &requests[i]);
    statuses[0].MPI_ERROR = statuses[1].MPI_ERROR = -1;
    CHECK(class_of(MPI_Waitall(2, requests, statuses)) == MPI_ERR_IN_STATUS);
    CHECK(class_of(statuses[0].MPI_ERROR) == MPI_ERR_TRUNCATE);
    /* The other one may be at its end, or wait still. */
    if (class_of(statuses[1].MPI_ERROR) == MPI_ERR_PENDING) MPI_Wait(&requests[1], MPI_STATUS_IGNORE);
    else CHECK(statuses[1].MPI_ERROR == MPI_SUCCESS);
    CHECK(into[1] == tag);
}

/* Without an error MPI_ERROR stays as it was. */
static void check_untouched(int tag) {
    MPI_Status status;
    int into[2];
    status.MPI_ERROR = 4711;
    MPI_Recv(&into[0], 1, MPI_INT, 0, tag, MPI_COMM_WORLD, &status);
    CHECK(status.MPI_ERROR == 4711);
    MPI_Recv(&into[1], 1, MPI_INT, 0, tag, MPI_COMM_WORLD, &status);
    CHECK(into[0] == tag && into[1] == tag && status.MPI_ERROR == 4711);
}

int main(int argc, char **argv) {
    test_begin(&argc, &argv);
    return_errors();
    if (test_rank == 0) {
        send_pair(SHORT, 1);
        send_pair(LONG, 2);
        send_pair(SHORT, 3);
        send_pair(LONG, 4);
        send_pair(SHORT, 5);
        send_pair(1, 6);
    } else if (test_rank == 1) {
        check_blocking(1);
        check_blocking(2);
        check_one_request(3);
        check_one_request(4);
        check_list(5);
        check_untouched(6);
    }
    return test_end();
}
