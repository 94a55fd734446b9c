/* Persistent requests (MPI 3.1, 3.9): begun again and again, inactive between (3.7.3). */
#include "test.h"

enum { ROUNDS = 30, MANY = 6, LONG = 3000 };

static int other;

/* What each mode sends arrives, each time anew; the handle stays. */
static void check_rounds(int which, MPI_Datatype type, MPI_Comm comm) {
    static int out[LONG], in[LONG];
    const int count = which == 0 ? LONG : 3;
    MPI_Request requests[2];
    MPI_Status statuses[2];
    if (which == 0) MPI_Send_init(out, count, type, other, 7, comm, &requests[0]);
    if (which == 1) MPI_Ssend_init(out, count, type, other, 7, comm, &requests[0]);
    if (which == 2) MPI_Rsend_init(out, count, type, other, 7, comm, &requests[0]);
    if (which == 3) MPI_Bsend_init(out, count, type, other, 7, comm, &requests[0]);
    MPI_Recv_init(in, count, type, MPI_ANY_SOURCE, MPI_ANY_TAG, comm, &requests[1]);
    const MPI_Request before[2] = {requests[0], requests[1]};
    for (int round = 0; round < ROUNDS; round++) {
        for (int i = 0; i < count; i++) out[i] = 1000 * test_rank + 10 * round + i, in[i] = -1;
        MPI_Start(&requests[1]);
        MPI_Barrier(MPI_COMM_WORLD);
        MPI_Start(&requests[0]);
        MPI_Waitall(2, requests, statuses);
        CHECK(requests[0] == before[0] && requests[1] == before[1]);
        CHECK(statuses[1].MPI_SOURCE == other && statuses[1].MPI_TAG == 7);
        CHECK(in[0] == 1000 * other + 10 * round && in[count - 1] == in[0] + count - 1);
    }
    MPI_Request_free(&requests[0]);
    MPI_Request_free(&requests[1]);
    CHECK(requests[0] == MPI_REQUEST_NULL && requests[1] == MPI_REQUEST_NULL);
}

/* The type and the communicator stay as long as the request, also where the program frees them. */
static void check_freed(void) {
    MPI_Datatype pair;
    MPI_Comm copy;
    MPI_Request requests[2];
    int out[4] = {1 + test_rank, -1, 2, -1}, in[4] = {0, 0, 0, 0};
    MPI_Type_vector(2, 1, 2, MPI_INT, &pair);
    MPI_Type_commit(&pair);
    MPI_Comm_dup(MPI_COMM_WORLD, &copy);
    MPI_Send_init(out, 1, pair, other, 0, copy, &requests[0]);
    MPI_Recv_init(in, 1, pair, other, 0, copy, &requests[1]);
    MPI_Type_free(&pair);
    MPI_Comm_free(&copy);
    for (int round = 0; round < 3; round++) {
        in[0] = in[2] = 0;
        MPI_Startall(2, requests);
        MPI_Waitall(2, requests, MPI_STATUSES_IGNORE);
        CHECK(in[0] == 1 + other && in[1] == 0 && in[2] == 2 && in[3] == 0);
    }
    MPI_Request_free(&requests[0]);
    MPI_Request_free(&requests[1]);
}

static bool is_empty(const MPI_Status *status) {
    int count = -1;
    MPI_Get_count(status, MPI_INT, &count);
    return status->MPI_SOURCE == MPI_ANY_SOURCE && status->MPI_TAG == MPI_ANY_TAG && count == 0;
}

/* An inactive request is as a null one to all calls that end requests. */
static void check_inactive(void) {
    int in = -1, flag = 0, index = -1, outcount = -1, indices[3];
    MPI_Request request, list[3];
    MPI_Status status, statuses[3];
    MPI_Recv_init(&in, 1, MPI_INT, other, 3, MPI_COMM_WORLD, &request);
    list[0] = MPI_REQUEST_NULL, list[1] = list[2] = request;
    MPI_Wait(&request, &status);
    CHECK(request == list[1] && is_empty(&status));
    MPI_Test(&request, &flag, &status);
    CHECK(flag && request == list[1] && is_empty(&status));
    flag = 0;
    MPI_Request_get_status(request, &flag, &status);
    CHECK(flag && is_empty(&status));
    MPI_Waitany(2, list, &index, &status);
    CHECK(index == MPI_UNDEFINED && is_empty(&status));
    flag = 0;
    MPI_Testany(2, list, &index, &flag, &status);
    CHECK(flag && index == MPI_UNDEFINED && is_empty(&status));
    MPI_Waitsome(2, list, &outcount, indices, statuses);
    CHECK(outcount == MPI_UNDEFINED);
    outcount = -1;
    MPI_Testsome(2, list, &outcount, indices, statuses);
    CHECK(outcount == MPI_UNDEFINED);
    MPI_Waitall(2, list, statuses);
    CHECK(is_empty(&statuses[0]) && is_empty(&statuses[1]) && list[1] == request);
    flag = 0;
    MPI_Testall(2, list, &flag, statuses);
    CHECK(flag && list[1] == request);
    MPI_Request_free(&request);
}

/* Some of a list are active: only these are ended. */
static void check_lists(void) {
    int in[MANY], out = 5 + test_rank, flag = 0, index = -1, outcount, indices[MANY];
    MPI_Request list[MANY], send;
    MPI_Status statuses[MANY];
    MPI_Send_init(&out, 1, MPI_INT, other, 4, MPI_COMM_WORLD, &send);
    for (int i = 0; i < MANY; i++) MPI_Recv_init(&in[i], 1, MPI_INT, other, 4, MPI_COMM_WORLD, &list[i]);
    for (int i = 1; i < MANY; i += 2) MPI_Start(&list[i]);
    MPI_Testany(MANY, list, &index, &flag, statuses);
    CHECK(!flag && index == MPI_UNDEFINED);
    MPI_Testsome(MANY, list, &outcount, indices, statuses);
    CHECK(outcount == 0);
    MPI_Barrier(MPI_COMM_WORLD);
    MPI_Start(&send);
    MPI_Wait(&send, MPI_STATUS_IGNORE);
    MPI_Waitany(MANY, list, &index, statuses);
    CHECK(index == 1 && in[1] == 5 + other && statuses[0].MPI_TAG == 4);
    MPI_Barrier(MPI_COMM_WORLD);
    MPI_Start(&send);
    MPI_Wait(&send, MPI_STATUS_IGNORE);
    MPI_Waitsome(MANY, list, &outcount, indices, statuses);
    CHECK(outcount == 1 && indices[0] == 3 && in[3] == 5 + other);
    MPI_Barrier(MPI_COMM_WORLD);
    MPI_Start(&list[1]);
    for (int i = 0; i < 2; i++) {
        MPI_Start(&send);
        MPI_Wait(&send, MPI_STATUS_IGNORE);
    }
    MPI_Waitall(MANY, list, statuses);
    CHECK(is_empty(&statuses[0]) && statuses[1].MPI_SOURCE == other && is_empty(&statuses[2]) &&
          is_empty(&statuses[3]));
    CHECK(statuses[5].MPI_SOURCE == other && in[5] == 5 + other);
    for (int i = 0; i < MANY; i++) MPI_Request_free(&list[i]);
    MPI_Request_free(&send);
}

/* A receive is cancelled and begun again; an active request that is freed goes on to its end (3.9). */
static void check_cancelled_and_freed(void) {
    static int in, out = 77;
    int flag = 0, got = 0;
    MPI_Request receive, send;
    MPI_Status status;
    MPI_Recv_init(&in, 1, MPI_INT, other, 5, MPI_COMM_WORLD, &receive);
    MPI_Start(&receive);
    MPI_Cancel(&receive);
    MPI_Wait(&receive, &status);
    MPI_Test_cancelled(&status, &flag);
    CHECK(flag && receive != MPI_REQUEST_NULL);
    MPI_Start(&receive);
    MPI_Request_get_status(receive, &flag, MPI_STATUS_IGNORE);
    CHECK(!flag);
    MPI_Request_free(&receive);
    CHECK(receive == MPI_REQUEST_NULL);
    MPI_Barrier(MPI_COMM_WORLD);
    MPI_Send_init(&out, 1, MPI_INT, other, 5, MPI_COMM_WORLD, &send);
    MPI_Start(&send);
    MPI_Request_free(&send);
    MPI_Send(&out, 1, MPI_INT, other, 6, MPI_COMM_WORLD);
    MPI_Recv(&got, 1, MPI_INT, other, 6, MPI_COMM_WORLD, MPI_STATUS_IGNORE);
    CHECK(in == 77 && got == 77);
}

/* What can't be begun is told, and stays as it was. */
static void check_errors(void) {
    int number = 0;
    MPI_Request null = MPI_REQUEST_NULL, active, plain, list[2], stale;
    MPI_Recv_init(&number, 1, MPI_INT, MPI_PROC_NULL, 0, MPI_COMM_WORLD, &list[0]);
    MPI_Recv_init(&number, 1, MPI_INT, other, 0, MPI_COMM_WORLD, &active);
    MPI_Irecv(&number, 1, MPI_INT, MPI_PROC_NULL, 0, MPI_COMM_WORLD, &plain);
    MPI_Start(&active);
    return_errors();
    CHECK(class_of(MPI_Start(&null)) == MPI_ERR_REQUEST);
    CHECK(class_of(MPI_Start(&active)) == MPI_ERR_REQUEST);
    CHECK(class_of(MPI_Start(&plain)) == MPI_ERR_REQUEST);
    list[1] = plain;
    CHECK(class_of(MPI_Startall(2, list)) == MPI_ERR_REQUEST && class_of(MPI_Start(&list[0])) == MPI_SUCCESS);
    CHECK(MPI_Startall(-1, list) != MPI_SUCCESS && MPI_Startall(0, NULL) == MPI_SUCCESS);
    CHECK(class_of(MPI_Send_init(&number, -1, MPI_INT, other, 0, MPI_COMM_WORLD, &stale)) == MPI_ERR_COUNT);
    CHECK(class_of(MPI_Recv_init(&number, 1, MPI_INT, test_size, 0, MPI_COMM_WORLD, &stale)) == MPI_ERR_RANK);
    MPI_Wait(&list[0], MPI_STATUS_IGNORE);
    CHECK(class_of(MPI_Cancel(&list[0])) == MPI_ERR_REQUEST);
    stale = list[0];
    MPI_Request_free(&list[0]);
    CHECK(class_of(MPI_Start(&stale)) == MPI_ERR_REQUEST);
    MPI_Wait(&plain, MPI_STATUS_IGNORE);
    MPI_Cancel(&active);
    MPI_Wait(&active, MPI_STATUS_IGNORE);
    MPI_Request_free(&active);
    MPI_Comm_set_errhandler(MPI_COMM_WORLD, MPI_ERRORS_ARE_FATAL);
}

int main(int argc, char **argv) {
    static char room[ROUNDS * (3 * sizeof(int) + MPI_BSEND_OVERHEAD)];
    void *at;
    int size;
    test_begin(&argc, &argv);
    other = 1 - test_rank;
    MPI_Buffer_attach(room, sizeof room);
    for (int which = 0; which < 4; which++) check_rounds(which, MPI_INT, MPI_COMM_WORLD);
    MPI_Buffer_detach(&at, &size);
    check_freed();
    check_inactive();
    check_lists();
    check_cancelled_and_freed();
    check_errors();
    return test_end();
}
