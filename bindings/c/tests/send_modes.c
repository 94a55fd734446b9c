/* Every way to send with every way to receive, from nothing to a megabyte (MPI 3.1, 3.2 to 3.7). */
#include "test.h"

static const int lengths[] = {0, 1, 7, 1023, 1024, 1025, 4096, 61440, 61441, 65536, 300001, 1048576};
enum { LENGTHS = sizeof lengths / sizeof *lengths, LONGEST = 1048576, WAYS = 6 };

static unsigned char from[LONGEST + 1], into[LONGEST + 1];

static void send_by(int way, const void *row, int length, int tag) {
    MPI_Request request = MPI_REQUEST_NULL;
    switch (way) {
    case 0:
        MPI_Send(row, length, MPI_BYTE, 1, tag, MPI_COMM_WORLD);
        return;
    case 1:
        MPI_Ssend(row, length, MPI_BYTE, 1, tag, MPI_COMM_WORLD);
        return;
    case 2:
        MPI_Rsend(row, length, MPI_BYTE, 1, tag, MPI_COMM_WORLD);
        return;
    case 3:
        MPI_Isend(row, length, MPI_BYTE, 1, tag, MPI_COMM_WORLD, &request);
        break;
    case 4:
        MPI_Issend(row, length, MPI_BYTE, 1, tag, MPI_COMM_WORLD, &request);
        break;
    default:
        MPI_Irsend(row, length, MPI_BYTE, 1, tag, MPI_COMM_WORLD, &request);
        break;
    }
    MPI_Wait(&request, MPI_STATUS_IGNORE);
    CHECK(request == MPI_REQUEST_NULL);
}

/* The receive stands before the send begins, as a ready send needs it. */
static void receive(int length, int tag) {
    MPI_Request request;
    MPI_Status status;
    int count = -1;
    memset(into, 0xee, sizeof into);
    MPI_Irecv(into, LONGEST, MPI_BYTE, 0, tag, MPI_COMM_WORLD, &request);
    MPI_Send(NULL, 0, MPI_BYTE, 0, tag, MPI_COMM_WORLD);
    MPI_Wait(&request, &status);
    CHECK(status.MPI_SOURCE == 0 && status.MPI_TAG == tag);
    MPI_Get_count(&status, MPI_BYTE, &count);
    CHECK(count == length);
    CHECK(is_filled(into, (size_t)length, (unsigned)tag));
    CHECK(into[length] == 0xee);
}

int main(int argc, char **argv) {
    test_begin(&argc, &argv);
    for (int at = 0; test_rank <= 1 && at < LENGTHS; at++) {
        for (int way = 0; way < WAYS; way++) {
            int tag = at * WAYS + way;
            if (test_rank == 1) {
                receive(lengths[at], tag);
                continue;
            }
            fill(from, (size_t)lengths[at], (unsigned)tag);
            MPI_Recv(NULL, 0, MPI_BYTE, 1, tag, MPI_COMM_WORLD, MPI_STATUS_IGNORE);
            send_by(way, from, lengths[at], tag);
        }
    }
    return test_end();
}
