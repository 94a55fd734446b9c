/* Messages of 1 MiB to 256 MiB go through whole, each four times as long as the one before, while there is time; one
 * that is longer than its receive is told and used up; memory grows with the message (MPI 3.1, 3.2 and 3.7). */
#include "test.h"

#include <sys/resource.h>

enum { SHORTEST = 1 << 20, LONGEST = 256 << 20, TIMES = 12, BASE = 512 << 10 };
static const double SECONDS = 4; /* behind so many no longer one is begun */

/* Bytes that depend on a seed, eight at a time: the length is a multiple of eight. */
static void put(unsigned long *row, int length, unsigned seed) {
    for (int at = 0; at < length / 8; at++) row[at] = (unsigned long)at * 0x9e3779b97f4a7c15u + seed;
}
static bool stands(const unsigned long *row, int length, unsigned seed) {
    for (int at = 0; at < length / 8; at++)
        if (row[at] != (unsigned long)at * 0x9e3779b97f4a7c15u + seed) return false;
    return true;
}

/* The most memory that this process had, in KiB. */
static long most_memory(void) {
    struct rusage usage;
    getrusage(RUSAGE_SELF, &usage);
    return usage.ru_maxrss;
}

/* From rank 0 to rank 1: a message whose length a probe tells. */
static void check_whole(unsigned long *row, int length, unsigned seed) {
    if (test_rank == 0) {
        put(row, length, seed);
        MPI_Send(row, length, MPI_BYTE, 1, 1, MPI_COMM_WORLD);
        return;
    }
    MPI_Status status;
    int count = -1;
    MPI_Probe(0, MPI_ANY_TAG, MPI_COMM_WORLD, &status);
    MPI_Get_count(&status, MPI_BYTE, &count);
    CHECK(count == length && status.MPI_TAG == 1);
    CHECK(MPI_Recv(row, count, MPI_BYTE, 0, 1, MPI_COMM_WORLD, &status) == MPI_SUCCESS);
    MPI_Get_count(&status, MPI_BYTE, &count);
    CHECK(count == length && stands(row, length, seed));
}

/* A message that is longer than its receive by eight bytes: nothing of it is there, and the next one follows. */
static void check_truncation(unsigned long *row, int length, unsigned seed) {
    if (test_rank == 0) {
        MPI_Send(row, length / 8, MPI_LONG, 1, 2, MPI_COMM_WORLD);
        MPI_Send(&seed, 1, MPI_UNSIGNED, 1, 2, MPI_COMM_WORLD);
        return;
    }
    MPI_Status status;
    unsigned next = seed + 1;
    row[length / 8 - 1] = ~0ul;
    CHECK(class_of(MPI_Recv(row, length / 8 - 1, MPI_LONG, 0, 2, MPI_COMM_WORLD, &status)) == MPI_ERR_TRUNCATE);
    CHECK(status.MPI_SOURCE == 0 && status.MPI_TAG == 2 && row[length / 8 - 1] == ~0ul);
    CHECK(MPI_Recv(&next, 1, MPI_UNSIGNED, 0, 2, MPI_COMM_WORLD, MPI_STATUS_IGNORE) == MPI_SUCCESS && next == seed);
}

/* Both ways at once, in the place of what was there. */
static void check_exchange(unsigned long *row, int length, unsigned seed) {
    put(row, length, seed + (unsigned)test_rank);
    MPI_Sendrecv_replace(row, length, MPI_BYTE, 1 - test_rank, 3, 1 - test_rank, 3, MPI_COMM_WORLD, MPI_STATUS_IGNORE);
    CHECK(stands(row, length, seed + 1 - (unsigned)test_rank));
}

int main(int argc, char **argv) {
    test_begin(&argc, &argv);
    return_errors();
    const double begun = MPI_Wtime();
    for (int length = SHORTEST, goes_on = 1; goes_on; length *= 4) {
        unsigned long *row = calloc(1, (size_t)length);
        check_whole(row, length, (unsigned)length);
        check_truncation(row, length, 5);
        check_exchange(row, length, 6);
        /* Checking tools take their part of it, too. */
        CHECK(most_memory() < BASE + (long)(length / 1024) * TIMES);
        free(row);
        goes_on = length < LONGEST && MPI_Wtime() - begun < SECONDS;
        MPI_Bcast(&goes_on, 1, MPI_INT, 0, MPI_COMM_WORLD);
    }
    return test_end();
}
