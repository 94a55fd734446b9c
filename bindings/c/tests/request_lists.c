/* Any, all and some of a list of requests (MPI 3.1, 3.7.5), requests that are looked at or let go (3.7.3, 3.7.6). */
#include "test.h"

enum { MANY = 12 };

static int out[MANY], in[MANY];

/* Rank 1 sends what it is told to: so rank 0 decides what is at its end. */
static void serve(void) {
    int number = 0;
    for (;;) {
        MPI_Recv(&number, 1, MPI_INT, 0, 0, MPI_COMM_WORLD, MPI_STATUS_IGNORE);
        if (number < 0) return;
        out[number % MANY] = 100 + number;
        MPI_Ssend(&out[number % MANY], 1, MPI_INT, 0, 1 + number, MPI_COMM_WORLD);
    }
}
static void order(int number) { MPI_Send(&number, 1, MPI_INT, 1, 0, MPI_COMM_WORLD); }

static void begin(MPI_Request list[MANY]) {
    for (int i = 0; i < MANY; i++) {
        in[i] = -1;
        list[i] = MPI_REQUEST_NULL;
        if (i % 4 != 3) MPI_Irecv(&in[i], 1, MPI_INT, 1, 1 + i, MPI_COMM_WORLD, &list[i]);
    }
}

static void check_any(void) {
    MPI_Request list[MANY];
    MPI_Status status;
    int index = -1, flag = 1;
    begin(list);
    MPI_Testany(MANY, list, &index, &flag, &status);
    CHECK(!flag && index == MPI_UNDEFINED);
    const int wanted[] = {5, 0, 10, 1, 9, 8, 2, 4, 6};
    for (int i = 0; i < 9; i++) {
        order(wanted[i]);
        flag = 0;
        if (i % 2 == 0) MPI_Waitany(MANY, list, &index, &status);
        else
            while (!flag) MPI_Testany(MANY, list, &index, &flag, &status);
        CHECK(index == wanted[i] && list[index] == MPI_REQUEST_NULL);
        CHECK(in[index] == 100 + index && status.MPI_SOURCE == 1 && status.MPI_TAG == 1 + index);
    }
    MPI_Waitany(MANY, list, &index, &status);
    CHECK(index == MPI_UNDEFINED);
}

static void check_all(void) {
    MPI_Request list[MANY];
    MPI_Status statuses[MANY];
    int flag = 1;
    begin(list);
    for (int i = 0; i < MANY; i++) {
        /* Behind the last order all may be at their ends. */
        MPI_Testall(MANY, list, &flag, statuses);
        CHECK(flag == 0 || i == MANY - 1);
        if (i % 4 == 3) continue;
        CHECK(list[i] != MPI_REQUEST_NULL);
        order(i);
    }
    while (!flag) MPI_Testall(MANY, list, &flag, statuses);
    for (int i = 0; i < MANY; i++) {
        CHECK(list[i] == MPI_REQUEST_NULL);
        if (i % 4 == 3) CHECK(statuses[i].MPI_SOURCE == MPI_ANY_SOURCE && statuses[i].MPI_TAG == MPI_ANY_TAG);
        else CHECK(in[i] == 100 + i && statuses[i].MPI_TAG == 1 + i);
    }
    begin(list);
    for (int i = 0; i < MANY; i++)
        if (i % 4 != 3) order(i);
    MPI_Waitall(MANY, list, MPI_STATUSES_IGNORE);
    for (int i = 0; i < MANY; i++) CHECK(list[i] == MPI_REQUEST_NULL && (i % 4 == 3 || in[i] == 100 + i));
}

static void check_some(void) {
    MPI_Request list[MANY];
    MPI_Status statuses[MANY];
    int count = -1, places[MANY], all = 0;
    begin(list);
    MPI_Testsome(MANY, list, &count, places, statuses);
    CHECK(count == 0);
    order(6);
    order(2);
    order(9);
    for (int turn = 0; all < 3; turn++) {
        if (turn % 2 == 0) MPI_Waitsome(MANY, list, &count, places, statuses);
        else MPI_Testsome(MANY, list, &count, places, statuses);
        CHECK(turn % 2 == 1 || count >= 1);
        for (int i = 0; i < count; i++) {
            CHECK(places[i] == 6 || places[i] == 2 || places[i] == 9);
            CHECK(in[places[i]] == 100 + places[i] && statuses[i].MPI_TAG == 1 + places[i]);
            CHECK(list[places[i]] == MPI_REQUEST_NULL);
        }
        all += count;
    }
    for (int i = 0; i < MANY; i++)
        if (list[i] != MPI_REQUEST_NULL) order(i);
    MPI_Waitall(MANY, list, MPI_STATUSES_IGNORE);
}

/* A look leaves the request; a request that is let go ends by itself. */
static void check_looks(void) {
    MPI_Request request, freed;
    MPI_Status status;
    static int got, other;
    int flag = 1;
    MPI_Irecv(&got, 1, MPI_INT, 1, 1 + 3, MPI_COMM_WORLD, &request);
    MPI_Request_get_status(request, &flag, &status);
    CHECK(!flag && request != MPI_REQUEST_NULL);
    order(3);
    while (!flag) MPI_Request_get_status(request, &flag, &status);
    CHECK(request != MPI_REQUEST_NULL && got == 103 && status.MPI_TAG == 4 && status.MPI_SOURCE == 1);
    flag = 0;
    MPI_Request_get_status(request, &flag, MPI_STATUS_IGNORE);
    CHECK(flag);
    MPI_Wait(&request, &status);
    CHECK(request == MPI_REQUEST_NULL && status.MPI_TAG == 4);
    MPI_Irecv(&other, 1, MPI_INT, 1, 1 + 7, MPI_COMM_WORLD, &freed);
    MPI_Request_free(&freed);
    CHECK(freed == MPI_REQUEST_NULL);
    order(7);
    order(11);
    MPI_Recv(&got, 1, MPI_INT, 1, 1 + 11, MPI_COMM_WORLD, MPI_STATUS_IGNORE);
    CHECK(got == 111 && other == 107);
}

/* A send that is let go arrives. */
static void check_freed_send(void) {
    static int row[100000];
    MPI_Request request;
    for (int i = 0; i < 100000; i++) row[i] = i;
    if (test_rank == 0) {
        MPI_Isend(row, 100000, MPI_INT, 1, 50, MPI_COMM_WORLD, &request);
        MPI_Request_free(&request);
        MPI_Recv(NULL, 0, MPI_INT, 1, 51, MPI_COMM_WORLD, MPI_STATUS_IGNORE);
    } else {
        memset(row, 0, sizeof row);
        MPI_Recv(row, 100000, MPI_INT, 0, 50, MPI_COMM_WORLD, MPI_STATUS_IGNORE);
        CHECK(row[1] == 1 && row[99999] == 99999);
        MPI_Send(NULL, 0, MPI_INT, 0, 51, MPI_COMM_WORLD);
    }
}

int main(int argc, char **argv) {
    test_begin(&argc, &argv);
    if (test_rank == 0) {
        check_any();
        check_all();
        check_some();
        check_looks();
        order(-1);
    } else {
        serve();
    }
    check_freed_send();
    return test_end();
}
