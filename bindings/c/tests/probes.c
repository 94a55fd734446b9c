/* Probes tell of a message and leave it; matching probes take it out (MPI 3.1, 3.8.1 to 3.8.3). */
#include "test.h"

static const MPI_Aint lengths[] = {0, 1, 3, 129, 20000};
enum { LENGTHS = 5, LONGEST = 20000 };

static double row[LONGEST + 1];

/* Sends messages of all lengths, twice. */
static void send_all(void) {
    for (int turn = 0; turn < 8; turn++) {
        for (int at = 0; at < LENGTHS; at++) {
            for (int i = 0; i < lengths[at]; i++) row[i] = turn * 100.0 + at + i;
            MPI_Send(row, (int)lengths[at], MPI_DOUBLE, 0, turn, MPI_COMM_WORLD);
        }
    }
}

static void check_row(int turn, int at) {
    int wrong = 0;
    for (int i = 0; i < lengths[at]; i++) wrong += row[i] != turn * 100.0 + at + i;
    CHECK(wrong == 0);
    CHECK(row[lengths[at]] == -1);
    for (int i = 0; i <= LONGEST; i++) row[i] = -1;
}

/* What a status tells of a message, from a probe or from its receive. */
static void check_status(const MPI_Status *status, int turn, int at) {
    int count = -1, elements = -1;
    CHECK(status->MPI_SOURCE == 1 && status->MPI_TAG == turn);
    MPI_Get_count(status, MPI_DOUBLE, &count);
    MPI_Get_elements(status, MPI_DOUBLE, &elements);
    CHECK(count == lengths[at] && elements == lengths[at]);
}

/* Looks for a message by a probe that waits or by one that doesn't, and receives it. */
static void receive_probed(int turn, int at) {
    MPI_Status status, again;
    int source = turn % 2 == 0 ? MPI_ANY_SOURCE : 1, tag = turn < 2 ? MPI_ANY_TAG : turn, flag = 0;
    if (turn % 4 < 2) MPI_Probe(source, tag, MPI_COMM_WORLD, &status);
    else
        while (!flag) MPI_Iprobe(source, tag, MPI_COMM_WORLD, &flag, &status);
    check_status(&status, turn, at);
    MPI_Probe(status.MPI_SOURCE, status.MPI_TAG, MPI_COMM_WORLD, &again);
    check_status(&again, turn, at);
    MPI_Recv(row, (int)lengths[at], MPI_DOUBLE, status.MPI_SOURCE, status.MPI_TAG, MPI_COMM_WORLD, &status);
    check_status(&status, turn, at);
    check_row(turn, at);
}

static void receive_matched(int turn, int at) {
    MPI_Status status;
    MPI_Message message = MPI_MESSAGE_NULL;
    MPI_Request request;
    int flag = 0;
    if (turn % 4 < 2) MPI_Mprobe(MPI_ANY_SOURCE, turn, MPI_COMM_WORLD, &message, &status);
    else
        while (!flag) MPI_Improbe(1, MPI_ANY_TAG, MPI_COMM_WORLD, &flag, &message, &status);
    CHECK(message != MPI_MESSAGE_NULL && message != MPI_MESSAGE_NO_PROC);
    check_status(&status, turn, at);
    if (turn % 2 == 0) {
        MPI_Mrecv(row, LONGEST, MPI_DOUBLE, &message, &status);
    } else {
        MPI_Imrecv(row, LONGEST, MPI_DOUBLE, &message, &request);
        MPI_Wait(&request, &status);
    }
    CHECK(message == MPI_MESSAGE_NULL);
    check_status(&status, turn, at);
    check_row(turn, at);
}

/* Nothing is there that nobody sent. */
static void check_nothing(void) {
    MPI_Message message;
    int flag = 1;
    MPI_Iprobe(MPI_ANY_SOURCE, 77, MPI_COMM_WORLD, &flag, MPI_STATUS_IGNORE);
    CHECK(!flag);
    flag = 1;
    MPI_Improbe(MPI_ANY_SOURCE, 77, MPI_COMM_WORLD, &flag, &message, MPI_STATUS_IGNORE);
    CHECK(!flag);
}

/* A message that was taken out is no longer there: the next receive takes the next one. */
static void check_taken_out(void) {
    MPI_Message message;
    int first = 0, second = 0;
    if (test_rank == 1) {
        for (int i = 1; i <= 2; i++) MPI_Send(&i, 1, MPI_INT, 0, 20, MPI_COMM_WORLD);
    } else {
        MPI_Mprobe(1, 20, MPI_COMM_WORLD, &message, MPI_STATUS_IGNORE);
        MPI_Recv(&second, 1, MPI_INT, 1, 20, MPI_COMM_WORLD, MPI_STATUS_IGNORE);
        MPI_Mrecv(&first, 1, MPI_INT, &message, MPI_STATUS_IGNORE);
        CHECK(first == 1 && second == 2);
    }
}

int main(int argc, char **argv) {
    test_begin(&argc, &argv);
    for (int i = 0; i <= LONGEST; i++) row[i] = -1;
    if (test_rank == 1) send_all();
    for (int turn = 0; test_rank == 0 && turn < 8; turn++)
        for (int at = 0; at < LENGTHS; at++) (turn < 4 ? receive_probed : receive_matched)(turn, at);
    if (test_rank < 2) check_nothing();
    if (test_rank < 2) check_taken_out();
    return test_end();
}
