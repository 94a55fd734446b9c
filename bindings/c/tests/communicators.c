/* Communicators (MPI 3.1, 6.4): copies and parts of them, what they keep apart, how they compare, names. */
#include "test.h"

static int compared(MPI_Comm one, MPI_Comm other) {
    int result = -1;
    MPI_Comm_compare(one, other, &result);
    return result;
}

/* A copy has the same members, and messages of its own. */
static void check_copy(void) {
    MPI_Comm copy;
    int rank = -1, size = -1, first = 1, second = 2, got = 0;
    MPI_Comm_dup(MPI_COMM_WORLD, &copy);
    MPI_Comm_rank(copy, &rank);
    MPI_Comm_size(copy, &size);
    CHECK(rank == test_rank && size == test_size);
    CHECK(compared(copy, MPI_COMM_WORLD) == MPI_CONGRUENT && compared(copy, copy) == MPI_IDENT);
    if (test_rank == 0 && test_size > 1) {
        MPI_Send(&first, 1, MPI_INT, 1, 5, MPI_COMM_WORLD);
        MPI_Send(&second, 1, MPI_INT, 1, 5, copy);
    } else if (test_rank == 1) {
        MPI_Recv(&got, 1, MPI_INT, MPI_ANY_SOURCE, MPI_ANY_TAG, copy, MPI_STATUS_IGNORE);
        CHECK(got == 2);
        MPI_Recv(&got, 1, MPI_INT, MPI_ANY_SOURCE, MPI_ANY_TAG, MPI_COMM_WORLD, MPI_STATUS_IGNORE);
        CHECK(got == 1);
    }
    MPI_Comm_free(&copy);
    CHECK(copy == MPI_COMM_NULL);
}

/* Halves, in reversed order; who names no colour is in none. */
static void check_parts(void) {
    MPI_Comm half, none;
    int rank = -1, size = -1, sum = 0, wanted = 0, count = 0;
    MPI_Comm_split(MPI_COMM_WORLD, test_rank % 2, -test_rank, &half);
    MPI_Comm_rank(half, &rank);
    MPI_Comm_size(half, &size);
    for (int other = test_rank % 2; other < test_size; other += 2) {
        wanted += other;
        count++;
    }
    CHECK(size == count && rank == (test_size - 1 - test_rank) / 2);
    MPI_Allreduce(&test_rank, &sum, 1, MPI_INT, MPI_SUM, half);
    CHECK(sum == wanted);
    if (size > 1) {
        int other = rank == 0 ? size - 1 : 0, got = -1;
        if (rank == 0 || rank == size - 1) {
            MPI_Sendrecv(&test_rank, 1, MPI_INT, other, 1, &got, 1, MPI_INT, other, 1, half, MPI_STATUS_IGNORE);
            CHECK(got == (rank == 0 ? test_rank % 2 : test_rank + 2 * (size - 1)));
        }
    }
    CHECK(compared(half, MPI_COMM_WORLD) == (test_size > 1 ? MPI_UNEQUAL : MPI_CONGRUENT));
    MPI_Comm_split(MPI_COMM_WORLD, test_rank == 0 ? MPI_UNDEFINED : 3, 0, &none);
    CHECK((none == MPI_COMM_NULL) == (test_rank == 0));
    if (none != MPI_COMM_NULL) {
        MPI_Comm_size(none, &size);
        MPI_Comm_rank(none, &rank);
        CHECK(size == test_size - 1 && rank == test_rank - 1);
        MPI_Comm_free(&none);
    }
    MPI_Comm_free(&half);
}

/* The same members in another order. */
static void check_turned(void) {
    MPI_Comm turned;
    int rank = -1;
    MPI_Comm_split(MPI_COMM_WORLD, 0, test_size - test_rank, &turned);
    MPI_Comm_rank(turned, &rank);
    CHECK(rank == test_size - 1 - test_rank);
    CHECK(compared(turned, MPI_COMM_WORLD) == (test_size > 1 ? MPI_SIMILAR : MPI_CONGRUENT));
    MPI_Comm_free(&turned);
}

static void check_self(void) {
    int rank = -1, size = -1, got = 0, flag = 1, own = test_rank + 1;
    MPI_Comm copy;
    MPI_Request request;
    MPI_Comm_rank(MPI_COMM_SELF, &rank);
    MPI_Comm_size(MPI_COMM_SELF, &size);
    CHECK(rank == 0 && size == 1);
    MPI_Irecv(&got, 1, MPI_INT, 0, 1, MPI_COMM_SELF, &request);
    MPI_Send(&own, 1, MPI_INT, 0, 1, MPI_COMM_SELF);
    MPI_Wait(&request, MPI_STATUS_IGNORE);
    CHECK(got == own);
    MPI_Allreduce(&own, &got, 1, MPI_INT, MPI_SUM, MPI_COMM_SELF);
    CHECK(got == own);
    MPI_Comm_dup(MPI_COMM_SELF, &copy);
    CHECK(compared(copy, MPI_COMM_SELF) == MPI_CONGRUENT);
    MPI_Comm_test_inter(copy, &flag);
    CHECK(!flag);
    MPI_Comm_free(&copy);
}

static bool has_name(MPI_Comm comm, const char *wanted) {
    char name[MPI_MAX_OBJECT_NAME];
    int length = -1;
    MPI_Comm_get_name(comm, name, &length);
    return strcmp(name, wanted) == 0 && length == (int)strlen(wanted);
}

static void check_names(void) {
    MPI_Comm copy;
    CHECK(has_name(MPI_COMM_WORLD, "MPI_COMM_WORLD") && has_name(MPI_COMM_SELF, "MPI_COMM_SELF"));
    MPI_Comm_dup(MPI_COMM_WORLD, &copy);
    MPI_Comm_set_name(copy, "of the second floor");
    CHECK(has_name(copy, "of the second floor") && has_name(MPI_COMM_WORLD, "MPI_COMM_WORLD"));
    CHECK(MPI_Comm_f2c(MPI_Comm_c2f(copy)) == copy && MPI_Comm_f2c(MPI_Comm_c2f(MPI_COMM_WORLD)) == MPI_COMM_WORLD);
    MPI_Comm_free(&copy);
}

/* What was begun on a communicator ends, though it is freed (6.4.3). */
static void check_freed(void) {
    MPI_Comm copy;
    MPI_Request requests[2];
    int got = -1, other = (test_rank + 1) % test_size;
    MPI_Comm_dup(MPI_COMM_WORLD, &copy);
    MPI_Irecv(&got, 1, MPI_INT, MPI_ANY_SOURCE, 1, copy, &requests[0]);
    MPI_Isend(&test_rank, 1, MPI_INT, other, 1, copy, &requests[1]);
    MPI_Comm_free(&copy);
    MPI_Waitall(2, requests, MPI_STATUSES_IGNORE);
    CHECK(got == (test_rank + test_size - 1) % test_size);
}

int main(int argc, char **argv) {
    test_begin(&argc, &argv);
    check_copy();
    check_parts();
    check_turned();
    check_self();
    check_names();
    check_freed();
    return test_end();
}
