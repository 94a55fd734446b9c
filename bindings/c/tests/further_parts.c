/* A communicator of which more copies and parts are made than an engine has places for, of intercommunicators too. */
#include "test.h"

/* Odd and even ranks, from the last one on; now and then the odd ones are in none. */
static void check_part(int turn) {
    const bool is_odd = test_rank % 2 == 1, is_none = is_odd && turn % 7 == 0;
    MPI_Comm part;
    int rank = -1, size = -1, one = 1, sum = 0;
    MPI_Comm_split(MPI_COMM_WORLD, is_none ? MPI_UNDEFINED : is_odd, -test_rank, &part);
    CHECK((part == MPI_COMM_NULL) == is_none);
    if (is_none) return;
    MPI_Comm_rank(part, &rank);
    MPI_Comm_size(part, &size);
    CHECK(size == (test_size + !is_odd) / 2 && rank == size - 1 - test_rank / 2);
    if (turn % 50 == 0) {
        MPI_Allreduce(&one, &sum, 1, MPI_INT, MPI_SUM, part);
        CHECK(sum == size);
    }
    MPI_Comm_free(&part);
}

static void check_copy(void) {
    MPI_Comm copy;
    int result = -1, got = -1;
    const int next = (test_rank + 1) % test_size, last = (test_rank + test_size - 1) % test_size;
    MPI_Comm_dup(MPI_COMM_WORLD, &copy);
    MPI_Comm_compare(copy, MPI_COMM_WORLD, &result);
    CHECK(result == MPI_CONGRUENT);
    MPI_Sendrecv(&test_rank, 1, MPI_INT, next, 0, &got, 1, MPI_INT, MPI_ANY_SOURCE, 0, copy, MPI_STATUS_IGNORE);
    CHECK(got == last);
    MPI_Comm_free(&copy);
}

/* The groups stay what they are, and so does the order of a merger. */
static void check_pairs(void) {
    MPI_Comm half, pair, copy, merged;
    int flag = 0, size = -1, one = 1, sum = 0, rank = -1;
    MPI_Comm_split(MPI_COMM_WORLD, test_rank % 2, 0, &half);
    MPI_Intercomm_create(half, 0, MPI_COMM_WORLD, 1 - test_rank % 2, 1, &pair);
    for (int turn = 0; turn < 1100; turn++) {
        MPI_Comm_dup(pair, &copy);
        MPI_Comm_test_inter(copy, &flag);
        MPI_Comm_remote_size(copy, &size);
        CHECK(flag && size == (test_size + test_rank % 2) / 2);
        if (turn % 100 == 0) {
            MPI_Allreduce(&one, &sum, 1, MPI_INT, MPI_SUM, copy);
            CHECK(sum == size);
        }
        MPI_Comm_free(&copy);
    }
    MPI_Intercomm_merge(pair, test_rank % 2, &merged);
    MPI_Comm_rank(merged, &rank);
    CHECK(rank == (test_rank % 2 == 1 ? (test_size + 1) / 2 : 0) + test_rank / 2);
    MPI_Barrier(merged);
    MPI_Comm_free(&merged);
    MPI_Comm_free(&pair);
    MPI_Comm_free(&half);
}

int main(int argc, char **argv) {
    test_begin(&argc, &argv);
    for (int turn = 0; turn < 4200; turn++) check_part(turn);
    check_copy();
    check_pairs();
    return test_end();
}
