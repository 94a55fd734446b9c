/* A send and a receive together (MPI 3.1, 3.10): round a ring, of different lengths, in place, with oneself. */
#include "test.h"

enum { LONGEST = 200000 };

static int row[LONGEST], into[LONGEST];

static int right_of(int rank) { return (rank + 1) % test_size; }
static int left_of(int rank) { return (rank + test_size - 1) % test_size; }

static void set_row(int *at, int length, int seed) {
    for (int i = 0; i < length; i++) at[i] = (int)mixed((unsigned)seed, (unsigned)i, 1);
}
static bool is_row_of(const int *at, int length, int seed) {
    for (int i = 0; i < length; i++)
        if (at[i] != (int)mixed((unsigned)seed, (unsigned)i, 1)) return false;
    return true;
}

/* Each rank sends more than its left neighbour. */
static void check_ring(int step) {
    int own = step * (test_rank + 1), others = step * (left_of(test_rank) + 1), count = -1;
    MPI_Status status;
    set_row(row, own, test_rank);
    memset(into, 0, sizeof into);
    MPI_Sendrecv(row, own, MPI_INT, right_of(test_rank), 3, into, LONGEST, MPI_INT, left_of(test_rank), 3,
                 MPI_COMM_WORLD, &status);
    MPI_Get_count(&status, MPI_INT, &count);
    CHECK(count == others && status.MPI_SOURCE == left_of(test_rank) && status.MPI_TAG == 3);
    CHECK(is_row_of(into, others, left_of(test_rank)));
}

static void check_replace(int length) {
    MPI_Status status;
    set_row(row, length, test_rank);
    MPI_Sendrecv_replace(row, length, MPI_INT, right_of(test_rank), test_rank, left_of(test_rank), MPI_ANY_TAG,
                         MPI_COMM_WORLD, &status);
    CHECK(status.MPI_SOURCE == left_of(test_rank) && status.MPI_TAG == left_of(test_rank));
    CHECK(is_row_of(row, length, left_of(test_rank)));
}

/* What goes out is read before what comes in is written, though the type has gaps. */
static void check_strided_replace(void) {
    MPI_Datatype column;
    MPI_Type_vector(10, 1, 3, MPI_INT, &column);
    MPI_Type_commit(&column);
    for (int i = 0; i < 30; i++) row[i] = i % 3 == 0 ? test_rank * 100 + i : -1;
    MPI_Sendrecv_replace(row, 1, column, right_of(test_rank), 1, left_of(test_rank), 1, MPI_COMM_WORLD,
                         MPI_STATUS_IGNORE);
    for (int i = 0; i < 30; i++) CHECK(row[i] == (i % 3 == 0 ? left_of(test_rank) * 100 + i : -1));
    MPI_Type_free(&column);
}

static void check_with_oneself(void) {
    int out = 5, in = 0;
    MPI_Sendrecv(&out, 1, MPI_INT, test_rank, 1, &in, 1, MPI_INT, test_rank, 1, MPI_COMM_WORLD, MPI_STATUS_IGNORE);
    CHECK(in == 5);
}

#if defined(KOMBAZILY) || MPI_VERSION >= 4
/* As one request (MPI 4.0, 3.10). */
static void check_later(int length) {
    MPI_Request requests[2];
    MPI_Status statuses[2];
    set_row(row, length, test_rank);
    memset(into, 0, sizeof into);
    MPI_Isendrecv(row, length, MPI_INT, right_of(test_rank), 7, into, length, MPI_INT, left_of(test_rank), 7,
                  MPI_COMM_WORLD, &requests[0]);
    int number = test_rank;
    MPI_Isendrecv_replace(&number, 1, MPI_INT, left_of(test_rank), 8, right_of(test_rank), 8, MPI_COMM_WORLD,
                          &requests[1]);
    MPI_Waitall(2, requests, statuses);
    CHECK(requests[0] == MPI_REQUEST_NULL && requests[1] == MPI_REQUEST_NULL);
    CHECK(is_row_of(into, length, left_of(test_rank)));
    CHECK(statuses[0].MPI_SOURCE == left_of(test_rank) && statuses[0].MPI_TAG == 7);
    CHECK(number == right_of(test_rank));
}
#endif

int main(int argc, char **argv) {
    test_begin(&argc, &argv);
    for (int step = 0; step <= 40000; step = step * 5 + 1) check_ring(step < 40000 ? step : 40000);
    check_replace(1);
    check_replace(1000);
    check_replace(LONGEST);
    check_strided_replace();
    check_with_oneself();
#if defined(KOMBAZILY) || MPI_VERSION >= 4
    check_later(3);
    check_later(50000);
#endif
    return test_end();
}
