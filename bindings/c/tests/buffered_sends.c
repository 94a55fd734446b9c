/* Buffered sends (MPI 3.1, 3.6): they end without their receives, as far as the attached buffer has room for them. */
#include "test.h"

enum { LONG = 20000, MANY = 8, TURNS = 20 };

static int row[LONG], other;

static void *attached(size_t bytes) {
    void *room = malloc(bytes);
    CHECK(MPI_Buffer_attach(room, (int)bytes) == MPI_SUCCESS);
    return room;
}

/* Gives what was attached, once its messages are on their way. */
static void detached(void *room, size_t bytes) {
    void *at = NULL;
    int size = -1;
    MPI_Buffer_detach(&at, &size);
    CHECK(at == room && size == (int)bytes);
    free(room);
}

static void receive_rows(int count) {
    static int in[LONG];
    for (int i = 0; i < count; i++) {
        memset(in, 0, sizeof in);
        MPI_Recv(in, LONG, MPI_INT, other, i, MPI_COMM_WORLD, MPI_STATUS_IGNORE);
        CHECK(in[0] == 100 * other + i && in[LONG - 1] == LONG - 1);
    }
}

/* Both send long messages first: standard sends would wait for each other. The data may be changed at once. */
static void check_both_first(void) {
    const size_t bytes = MANY * (sizeof row + MPI_BSEND_OVERHEAD);
    void *room = attached(bytes);
    for (int i = 0; i < MANY; i++) {
        MPI_Request request;
        row[0] = 100 * test_rank + i;
        if (i % 2 == 0) MPI_Bsend(row, LONG, MPI_INT, other, i, MPI_COMM_WORLD);
        else {
            MPI_Ibsend(row, LONG, MPI_INT, other, i, MPI_COMM_WORLD, &request);
            MPI_Wait(&request, MPI_STATUS_IGNORE);
        }
        row[0] = -1;
    }
    receive_rows(MANY);
    detached(room, bytes);
}

/* A message that was received takes no room any more: so one of room for one sends many, one behind the other. */
static void check_room_again(void) {
    const size_t bytes = sizeof row + MPI_BSEND_OVERHEAD;
    void *room = attached(bytes);
    int number = 0;
    for (int turn = 0; turn < TURNS; turn++) {
        row[0] = 100 * test_rank;
        MPI_Bsend(row, LONG, MPI_INT, other, 0, MPI_COMM_WORLD);
        receive_rows(1);
        MPI_Send(&turn, 1, MPI_INT, other, 1, MPI_COMM_WORLD);
        MPI_Recv(&number, 1, MPI_INT, other, 1, MPI_COMM_WORLD, MPI_STATUS_IGNORE);
        CHECK(number == turn);
    }
    detached(room, bytes);
}

/* Without room there is an error, and nothing is sent. */
static void check_no_room(void) {
    const size_t bytes = 2 * (sizeof row + MPI_BSEND_OVERHEAD) - 1;
    MPI_Request request;
    void *at = &at;
    int size = -1, flag = 1;
    return_errors();
    CHECK(class_of(MPI_Bsend(row, LONG, MPI_INT, other, 0, MPI_COMM_WORLD)) == MPI_ERR_BUFFER);
    CHECK(class_of(MPI_Bsend(row, 0, MPI_INT, other, 0, MPI_COMM_WORLD)) == MPI_ERR_BUFFER);
    CHECK(MPI_Bsend(row, LONG, MPI_INT, MPI_PROC_NULL, 0, MPI_COMM_WORLD) == MPI_SUCCESS);
    CHECK(class_of(MPI_Buffer_attach(row, -1)) == MPI_ERR_ARG);
    CHECK(class_of(MPI_Buffer_attach(NULL, 1)) == MPI_ERR_BUFFER);
    void *room = attached(bytes);
    CHECK(class_of(MPI_Buffer_attach(row, 1)) == MPI_ERR_BUFFER);
    row[0] = 100 * test_rank;
    CHECK(MPI_Bsend(row, LONG, MPI_INT, other, 0, MPI_COMM_WORLD) == MPI_SUCCESS);
    CHECK(class_of(MPI_Bsend(row, LONG, MPI_INT, other, 0, MPI_COMM_WORLD)) == MPI_ERR_BUFFER);
    CHECK(class_of(MPI_Ibsend(row, LONG, MPI_INT, other, 0, MPI_COMM_WORLD, &request)) == MPI_ERR_BUFFER);
    MPI_Bsend_init(row, LONG, MPI_INT, other, 0, MPI_COMM_WORLD, &request);
    CHECK(class_of(MPI_Start(&request)) == MPI_ERR_BUFFER);
    MPI_Barrier(MPI_COMM_WORLD);
    receive_rows(1);
    MPI_Barrier(MPI_COMM_WORLD);
    row[0] = 100 * test_rank;
    CHECK(MPI_Start(&request) == MPI_SUCCESS);
    receive_rows(1);
    MPI_Wait(&request, MPI_STATUS_IGNORE);
    MPI_Request_free(&request);
    MPI_Comm_set_errhandler(MPI_COMM_WORLD, MPI_ERRORS_ARE_FATAL);
    detached(room, bytes);
    MPI_Iprobe(MPI_ANY_SOURCE, MPI_ANY_TAG, MPI_COMM_WORLD, &flag, MPI_STATUS_IGNORE);
    CHECK(!flag);
    MPI_Buffer_detach(&at, &size);
    CHECK(at == NULL && size == 0);
}

/* Detaching waits for the messages; so does the end, where a program leaves it undone (8.7). */
static void check_ends(void) {
    static char room[sizeof row + MPI_BSEND_OVERHEAD];
    MPI_Comm copy;
    void *at;
    int size;
    MPI_Buffer_attach(room, sizeof room);
    row[0] = 100 * test_rank;
    MPI_Comm_dup(MPI_COMM_WORLD, &copy);
    if (test_rank == 0) {
        MPI_Bsend(row, LONG, MPI_INT, 1, 0, copy);
        MPI_Comm_free(&copy);
        MPI_Buffer_detach(&at, &size);
        MPI_Buffer_attach(room, sizeof room);
    } else {
        static int in[LONG];
        MPI_Recv(in, LONG, MPI_INT, 0, 0, copy, MPI_STATUS_IGNORE);
        CHECK(in[0] == 0 && in[LONG - 1] == LONG - 1);
        MPI_Comm_free(&copy);
    }
    row[0] = 100 * test_rank;
    if (test_rank == 0) MPI_Bsend(row, LONG, MPI_INT, 1, 0, MPI_COMM_WORLD);
}

int main(int argc, char **argv) {
    test_begin(&argc, &argv);
    other = 1 - test_rank;
    for (int i = 0; i < LONG; i++) row[i] = i;
    check_both_first();
    check_room_again();
    check_no_room();
    check_ends();
    int errors = test_errors, all = 0;
    MPI_Reduce(&errors, &all, 1, MPI_INT, MPI_SUM, 0, MPI_COMM_WORLD);
    if (test_rank == 1) receive_rows(1);
    if (test_rank == 0) printf(all == 0 ? "No Errors\n" : "%d errors\n", all);
    MPI_Finalize();
    return test_errors != 0;
}
