/* Communicators of communicators, several at a time, each with messages and collectives of its own (MPI 3.1, 6.4). */
#include "test.h"

enum { LAYERS = 20 };

int main(int argc, char **argv) {
    test_begin(&argc, &argv);
    MPI_Comm layers[LAYERS];
    MPI_Request requests[2 * LAYERS];
    int got[LAYERS], sent[LAYERS];
    for (int i = 0; i < LAYERS; i++) {
        MPI_Comm from = i == 0 ? MPI_COMM_WORLD : layers[i / 2];
        if (i % 3 == 2) MPI_Comm_split(from, 0, 0, &layers[i]);
        else MPI_Comm_dup(from, &layers[i]);
    }
    int right = (test_rank + 1) % test_size, left = (test_rank + test_size - 1) % test_size;
    /* The receives are begun in another order than the sends, with the same tag. */
    for (int i = 0; i < LAYERS; i++) MPI_Irecv(&got[i], 1, MPI_INT, left, 7, layers[i], &requests[i]);
    for (int i = 0; i < LAYERS; i++) {
        int at = (i * 7 + 3) % LAYERS;
        sent[at] = test_rank * 100 + at;
        MPI_Isend(&sent[at], 1, MPI_INT, right, 7, layers[at], &requests[LAYERS + at]);
    }
    MPI_Waitall(2 * LAYERS, requests, MPI_STATUSES_IGNORE);
    for (int i = 0; i < LAYERS; i++) {
        int sum = 0;
        CHECK(got[i] == left * 100 + i);
        MPI_Allreduce(&i, &sum, 1, MPI_INT, MPI_SUM, layers[LAYERS - 1 - i]);
        CHECK(sum == i * test_size);
    }
    for (int i = 0; i < LAYERS; i++) MPI_Comm_free(&layers[i]);
    return test_end();
}
