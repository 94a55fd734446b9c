/* Requests of every kind that the program lets go (MPI 3.1, 3.7.3): each goes on to its end by itself. */
#include "test.h"

enum { LONG = 20000 };

static int out[LONG], in[LONG], other;

static void let_go(MPI_Request *request) {
    CHECK(MPI_Request_free(request) == MPI_SUCCESS && *request == MPI_REQUEST_NULL);
}

/* Both ranks know by an exchange of this tag that what was begun before is there: messages of a pair keep their order.
 */
static void meet(int tag) {
    int got = -1;
    MPI_Sendrecv(&tag, 1, MPI_INT, other, tag, &got, 1, MPI_INT, other, tag, MPI_COMM_WORLD, MPI_STATUS_IGNORE);
    CHECK(got == tag);
}

/* What was sent by a request that is let go comes, and what such a receive gets is there. */
static void check_sent(MPI_Request *request, int tag) {
    let_go(request);
    memset(in, 0, sizeof in);
    MPI_Recv(in, LONG, MPI_INT, other, tag, MPI_COMM_WORLD, MPI_STATUS_IGNORE);
    CHECK(in[0] == 1 + other && in[LONG - 1] == LONG - 1);
}

static void check_sends(void) {
    MPI_Request request;
    MPI_Isend(out, LONG, MPI_INT, other, 0, MPI_COMM_WORLD, &request);
    check_sent(&request, 0);
    MPI_Issend(out, LONG, MPI_INT, other, 1, MPI_COMM_WORLD, &request);
    check_sent(&request, 1);
    MPI_Ibsend(out, LONG, MPI_INT, other, 2, MPI_COMM_WORLD, &request);
    check_sent(&request, 2);
    MPI_Send_init(out, LONG, MPI_INT, other, 3, MPI_COMM_WORLD, &request);
    MPI_Start(&request);
    check_sent(&request, 3);
}

static void check_receives(void) {
    static int rows[4];
    MPI_Request request;
    MPI_Message message;
    int number = 40 + test_rank;
    memset(rows, 0, sizeof rows);
    MPI_Irecv(&rows[0], 1, MPI_INT, other, 4, MPI_COMM_WORLD, &request);
    let_go(&request);
    MPI_Recv_init(&rows[1], 1, MPI_INT, other, 4, MPI_COMM_WORLD, &request);
    MPI_Start(&request);
    let_go(&request);
    MPI_Isendrecv(&number, 1, MPI_INT, other, 5, &rows[2], 1, MPI_INT, other, 5, MPI_COMM_WORLD, &request);
    let_go(&request);
    MPI_Send(&number, 1, MPI_INT, other, 4, MPI_COMM_WORLD);
    MPI_Send(&number, 1, MPI_INT, other, 4, MPI_COMM_WORLD);
    MPI_Send(&number, 1, MPI_INT, other, 6, MPI_COMM_WORLD);
    MPI_Mprobe(other, 6, MPI_COMM_WORLD, &message, MPI_STATUS_IGNORE);
    MPI_Imrecv(&rows[3], 1, MPI_INT, &message, &request);
    let_go(&request);
    meet(7);
    for (int i = 0; i < 4; i++) CHECK(rows[i] == 40 + other);
}

/* A long message that was taken out, whose receive is let go before its data are there. */
static void check_long_message(void) {
    static int row[LONG];
    MPI_Request send, receive;
    MPI_Message message;
    memset(row, 0, sizeof row);
    MPI_Isend(out, LONG, MPI_INT, other, 8, MPI_COMM_WORLD, &send);
    MPI_Mprobe(other, 8, MPI_COMM_WORLD, &message, MPI_STATUS_IGNORE);
    MPI_Imrecv(row, LONG, MPI_INT, &message, &receive);
    let_go(&receive);
    MPI_Wait(&send, MPI_STATUS_IGNORE);
    meet(9);
    CHECK(row[0] == 1 + other && row[LONG - 1] == LONG - 1);
}

/* One that is at its end, one that was cancelled, one that isn't begun. */
static void check_others(void) {
    MPI_Request request;
    int number = 0;
    MPI_Irecv(&number, 1, MPI_INT, MPI_PROC_NULL, 0, MPI_COMM_WORLD, &request);
    let_go(&request);
    MPI_Irecv(&number, 1, MPI_INT, other, 99, MPI_COMM_WORLD, &request);
    MPI_Cancel(&request);
    let_go(&request);
    MPI_Recv_init(&number, 1, MPI_INT, other, 99, MPI_COMM_WORLD, &request);
    let_go(&request);
    return_errors();
    CHECK(class_of(MPI_Request_free(&request)) == MPI_ERR_REQUEST);
    MPI_Comm_set_errhandler(MPI_COMM_WORLD, MPI_ERRORS_ARE_FATAL);
    meet(10);
}

int main(int argc, char **argv) {
    static char room[sizeof out + MPI_BSEND_OVERHEAD];
    void *at;
    int size;
    test_begin(&argc, &argv);
    other = 1 - test_rank;
    for (int i = 0; i < LONG; i++) out[i] = i;
    out[0] = 1 + test_rank;
    MPI_Buffer_attach(room, sizeof room);
    check_sends();
    MPI_Buffer_detach(&at, &size);
    check_receives();
    check_long_message();
    check_others();
    return test_end();
}
