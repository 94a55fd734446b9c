/* As many copies of MPI_COMM_WORLD as the first word says, and a message round each of them at once (MPI 3.1, 6.4.2).
 */
#include "../test.h"

/* A number that differs from copy to copy and from rank to rank. */
static int number_of(int copy, int rank) { return (int)(mixed((unsigned)copy, (unsigned)rank, 11) >> 1); }

int main(int argc, char **argv) {
    test_begin(&argc, &argv);
    const int count = argc > 1 ? atoi(argv[1]) : 0;
    const int right = (test_rank + 1) % test_size, left = (test_rank + test_size - 1) % test_size;
    MPI_Comm *copies = malloc((size_t)count * sizeof *copies);
    MPI_Request *requests = malloc(2 * (size_t)count * sizeof *requests);
    int *sent = malloc((size_t)count * sizeof *sent), *got = calloc((size_t)count, sizeof *got);
    for (int at = 0; at < count; at++) MPI_Comm_dup(MPI_COMM_WORLD, &copies[at]);
    for (int at = 0; at < count; at++) {
        MPI_Irecv(&got[at], 1, MPI_INT, MPI_ANY_SOURCE, MPI_ANY_TAG, copies[at], &requests[2 * at]);
        /* The sends are begun in another order. */
        const int other = count - 1 - at;
        sent[other] = number_of(other, test_rank);
        MPI_Isend(&sent[other], 1, MPI_INT, right, 3, copies[other], &requests[2 * at + 1]);
    }
    MPI_Waitall(2 * count, requests, MPI_STATUSES_IGNORE);
    for (int at = 0; at < count; at++) CHECK(got[at] == number_of(at, left));
    for (int at = 0; at < count; at++) MPI_Comm_free(&copies[at]);
    free(copies);
    free(requests);
    free(sent);
    free(got);
    return test_end();
}
