/* What waits unasked stays within a bound: beyond it a standard send is at its end once its receive has begun (MPI 3.1,
 * 3.4). Sends to other ranks, to the own one and buffered ones don't wait for that. */
#define _GNU_SOURCE
#include "test.h"

enum { BYTES = 936 /* a message counts 64 more */, ROOM = 100 /* so many of these may wait */, MANY = 2 * ROOM };
enum { TAG_DATA = 1, TAG_GO, TAG_EMPTY, TAG_AGAIN, TAG_BUFFERED, TAG_OWN, TAG_BOTH };

static char row[BYTES], place[BYTES];

static bool is_finished(MPI_Request *request) {
    int flag = 0;
    MPI_Test(request, &flag, MPI_STATUS_IGNORE);
    return flag != 0;
}

static void receive(int source, int tag) {
    MPI_Recv(place, BYTES, MPI_BYTE, source, tag, MPI_COMM_WORLD, MPI_STATUS_IGNORE);
}

/* Sends to a rank until a send isn't at its end at once: how many were; that one is left. */
static int send_until_full(int target, MPI_Request *left) {
    for (int sent = 0; sent < MANY; sent++) {
        MPI_Isend(row, BYTES, MPI_BYTE, target, TAG_DATA, MPI_COMM_WORLD, left);
        if (!is_finished(left)) return sent;
    }
    return MANY;
}

/* What doesn't wait though rank 1 has much to receive. */
static void send_elsewhere(void) {
    static char room[3 * (BYTES + MPI_BSEND_OVERHEAD)];
    MPI_Request request;
    void *at;
    int size;
    MPI_Isend(row, BYTES, MPI_BYTE, 2, TAG_DATA, MPI_COMM_WORLD, &request);
    CHECK(is_finished(&request));
    for (int i = 0; i < MANY; i++) MPI_Send(row, BYTES, MPI_BYTE, 0, TAG_OWN, MPI_COMM_WORLD);
    for (int i = 0; i < MANY; i++) receive(0, TAG_OWN);
    MPI_Buffer_attach(room, sizeof room);
    for (int i = 0; i < 3; i++) MPI_Bsend(row, BYTES, MPI_BYTE, 1, TAG_BUFFERED, MPI_COMM_WORLD);
    MPI_Buffer_detach(&at, &size);
}

static void send_all(void) {
    MPI_Request requests[3];
    int none = 0;
    CHECK(send_until_full(1, &requests[0]) == ROOM);
    MPI_Isend(row, 0, MPI_BYTE, 1, TAG_EMPTY, MPI_COMM_WORLD, &requests[1]);
    MPI_Send_init(row, 1, MPI_BYTE, 1, TAG_AGAIN, MPI_COMM_WORLD, &requests[2]);
    MPI_Start(&requests[2]);
    const double until = MPI_Wtime() + 0.1;
    while (MPI_Wtime() < until && none == 0) MPI_Testsome(3, requests, &none, (int[3]){0}, MPI_STATUSES_IGNORE);
    CHECK(none == 0);
    send_elsewhere();
    MPI_Send(row, 1, MPI_BYTE, 1, TAG_GO, MPI_COMM_WORLD);
    MPI_Waitall(3, requests, MPI_STATUSES_IGNORE);
    MPI_Request_free(&requests[2]);
    /* The ends tell that all was received: as much may wait as before. */
    CHECK(send_until_full(1, &requests[0]) == ROOM);
    MPI_Send(row, 1, MPI_BYTE, 1, TAG_GO, MPI_COMM_WORLD);
    MPI_Wait(&requests[0], MPI_STATUS_IGNORE);
}

static void receive_all(void) {
    receive(0, TAG_GO);
    for (int i = 0; i <= ROOM; i++) receive(0, TAG_DATA);
    receive(0, TAG_EMPTY);
    receive(0, TAG_AGAIN);
    for (int i = 0; i < 3; i++) receive(0, TAG_BUFFERED);
    receive(0, TAG_GO);
    for (int i = 0; i <= ROOM; i++) receive(0, TAG_DATA);
}

/* A send beside a receive goes on where both ranks have much to receive. */
static void exchange(int other) {
    MPI_Request request;
    char in;
    CHECK(send_until_full(other, &request) == ROOM);
    MPI_Sendrecv(row, 1, MPI_BYTE, other, TAG_BOTH, &in, 1, MPI_BYTE, other, TAG_BOTH, MPI_COMM_WORLD,
                 MPI_STATUS_IGNORE);
    for (int i = 0; i <= ROOM; i++) receive(other, TAG_DATA);
    MPI_Wait(&request, MPI_STATUS_IGNORE);
}

int main(int argc, char **argv) {
    setenv("KOMBAZILY_UNASKED", "100000", 1);
    test_begin(&argc, &argv);
    if (test_rank == 0) send_all();
    if (test_rank == 1) receive_all();
    if (test_rank == 2) receive(0, TAG_DATA);
    MPI_Barrier(MPI_COMM_WORLD);
    if (test_rank < 2) exchange(1 - test_rank);
    return test_end();
}
