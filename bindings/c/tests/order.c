/* Messages of one sender don't overtake one another, short or long, whatever mode they are sent in (MPI 3.1, 3.5). */
#include "test.h"

enum { MESSAGES = 60, LONGEST = 40000 };

static int rows[MESSAGES][LONGEST];

/* Short ones between long ones. */
static int length_of(int number) { return number % 3 == 0 ? LONGEST : number % 3 == 1 ? 1 : 200; }

static void send_all(int target) {
    MPI_Request requests[MESSAGES];
    for (int i = 0; i < MESSAGES; i++) {
        rows[i][0] = i;
        rows[i][length_of(i) - 1] = i;
        if (i % 2 == 0) MPI_Isend(rows[i], length_of(i), MPI_INT, target, 5, MPI_COMM_WORLD, &requests[i]);
        else MPI_Issend(rows[i], length_of(i), MPI_INT, target, 5, MPI_COMM_WORLD, &requests[i]);
    }
    MPI_Waitall(MESSAGES, requests, MPI_STATUSES_IGNORE);
}

/* Half of the receives stand before the messages come, and each takes the next message. */
static void receive_all(int source) {
    MPI_Request requests[MESSAGES];
    MPI_Status statuses[MESSAGES];
    for (int i = 0; i < MESSAGES; i++) {
        int from = i % 4 == 1 ? MPI_ANY_SOURCE : source, tag = i % 5 == 2 ? MPI_ANY_TAG : 5;
        if (i == MESSAGES / 2) MPI_Send(NULL, 0, MPI_INT, source, 6, MPI_COMM_WORLD);
        MPI_Irecv(rows[i], LONGEST, MPI_INT, from, tag, MPI_COMM_WORLD, &requests[i]);
    }
    MPI_Waitall(MESSAGES, requests, statuses);
    for (int i = 0; i < MESSAGES; i++) {
        int count = -1;
        MPI_Get_count(&statuses[i], MPI_INT, &count);
        CHECK(count == length_of(i));
        CHECK(rows[i][0] == i && rows[i][length_of(i) - 1] == i);
        CHECK(statuses[i].MPI_SOURCE == source && statuses[i].MPI_TAG == 5);
    }
}

int main(int argc, char **argv) {
    test_begin(&argc, &argv);
    if (test_rank == 0) {
        MPI_Recv(NULL, 0, MPI_INT, 1, 6, MPI_COMM_WORLD, MPI_STATUS_IGNORE);
        send_all(1);
    } else if (test_rank == 1) {
        receive_all(0);
    }
    return test_end();
}
