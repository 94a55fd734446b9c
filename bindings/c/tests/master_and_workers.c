/* A master hands work to whoever asks, by receives from any source; each piece is done once. */
#include "test.h"

enum { PIECES = 300, WORK = 1, RESULT = 2, STOP = 3 };

static long done(long piece) { return piece * piece + 1; }

static void lead(void) {
    long results[PIECES], next = 0, message[2];
    int workers = test_size - 1;
    memset(results, 0, sizeof results);
    while (workers > 0) {
        MPI_Status status;
        MPI_Recv(message, 2, MPI_LONG, MPI_ANY_SOURCE, MPI_ANY_TAG, MPI_COMM_WORLD, &status);
        if (status.MPI_TAG == RESULT) {
            CHECK(message[0] >= 0 && message[0] < PIECES && results[message[0]] == 0);
            results[message[0]] = message[1];
        }
        if (next < PIECES) {
            MPI_Send(&next, 1, MPI_LONG, status.MPI_SOURCE, WORK, MPI_COMM_WORLD);
            next++;
        } else {
            MPI_Send(NULL, 0, MPI_LONG, status.MPI_SOURCE, STOP, MPI_COMM_WORLD);
            workers--;
        }
    }
    for (long i = 0; test_size > 1 && i < PIECES; i++) CHECK(results[i] == done(i));
}

static void work(void) {
    long message[2] = {0, 0};
    MPI_Send(message, 0, MPI_LONG, 0, WORK, MPI_COMM_WORLD);
    for (;;) {
        MPI_Status status;
        MPI_Recv(message, 1, MPI_LONG, 0, MPI_ANY_TAG, MPI_COMM_WORLD, &status);
        if (status.MPI_TAG == STOP) return;
        message[1] = done(message[0]);
        MPI_Send(message, 2, MPI_LONG, 0, RESULT, MPI_COMM_WORLD);
    }
}

int main(int argc, char **argv) {
    test_begin(&argc, &argv);
    if (test_rank == 0) lead();
    else work();
    return test_end();
}
