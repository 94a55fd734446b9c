/* A send of MPI_Sendrecv whose receive can't begin, since all requests are open, is ended: it holds no request. */
#include "test.h"

enum { MOST = 65536 };

static MPI_Request requests[MOST];

/* How many receives can be open at one time. */
static int count_open(MPI_Comm comm, int room[]) {
    int count = 0;
    while (count < MOST && MPI_Irecv(room, 1, MPI_INT, 0, 9, comm, &requests[count]) == MPI_SUCCESS) count++;
    return count;
}

static void cancel(int first, int last) {
    for (int i = first; i < last; i++) {
        MPI_Cancel(&requests[i]);
        MPI_Wait(&requests[i], MPI_STATUS_IGNORE);
    }
}

int main(int argc, char **argv) {
    test_begin(&argc, &argv);
    MPI_Comm comm = MPI_COMM_SELF;
    MPI_Comm_set_errhandler(comm, MPI_ERRORS_RETURN);
    int room = 0, sent = 7, got = 0, flag;
    int most = count_open(comm, &room);
    CHECK(most == MOST);
    /* One place: the send takes it, and its receive has none. */
    cancel(most - 1, most);
    CHECK(class_of(MPI_Sendrecv(&sent, 1, MPI_INT, 0, 1, &got, 1, MPI_INT, 0, 2, comm, MPI_STATUS_IGNORE)) ==
          MPI_ERR_OTHER);
    MPI_Iprobe(0, 1, comm, &flag, MPI_STATUS_IGNORE);
    CHECK(flag);
    MPI_Request one, other;
    CHECK(MPI_Irecv(&got, 1, MPI_INT, 0, 1, comm, &one) == MPI_SUCCESS);
    CHECK(MPI_Wait(&one, MPI_STATUS_IGNORE) == MPI_SUCCESS && got == 7);
    /* The same of the one that is waited for later. */
    CHECK(class_of(MPI_Isendrecv(&sent, 1, MPI_INT, 0, 1, &got, 1, MPI_INT, 0, 2, comm, &other)) == MPI_ERR_OTHER);
    CHECK(MPI_Recv(&got, 1, MPI_INT, 0, 1, comm, MPI_STATUS_IGNORE) == MPI_SUCCESS);
    cancel(0, most - 1);
    CHECK(count_open(comm, &room) == MOST);
    cancel(0, MOST);
    return test_end();
}
