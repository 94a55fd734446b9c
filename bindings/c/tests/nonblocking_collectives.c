/* Nonblocking collectives (MPI 3.1, 5.12): several at once, ended in any order, beside other calls. */
#include "one_of_each.h"

static void begin_first(MPI_Comm comm, int root, MPI_Request *list) {
    MPI_Ibarrier(comm, list++);
    MPI_Ibcast(given[1], COUNT, MPI_INT, root, comm, list++);
    MPI_Igather(given[2], COUNT, MPI_INT, got[2], COUNT, MPI_INT, root, comm, list++);
    MPI_Igatherv(given[3], COUNT, MPI_INT, got[3], counts, places, MPI_INT, root, comm, list++);
    MPI_Iscatter(given[4], COUNT, MPI_INT, got[4], COUNT, MPI_INT, root, comm, list++);
    MPI_Iscatterv(given[5], counts, places, MPI_INT, got[5], COUNT, MPI_INT, root, comm, list++);
    MPI_Iallgather(given[6], COUNT, MPI_INT, got[6], COUNT, MPI_INT, comm, list++);
    MPI_Iallgatherv(given[7], COUNT, MPI_INT, got[7], counts, places, MPI_INT, comm, list++);
    MPI_Ialltoall(given[8], COUNT, MPI_INT, got[8], COUNT, MPI_INT, comm, list);
}

static void begin_others(MPI_Comm comm, int root, MPI_Request *list) {
    MPI_Ialltoallv(given[9], counts, places, MPI_INT, got[9], counts, places, MPI_INT, comm, list++);
    MPI_Ialltoallw(given[10], counts, bytes, types, got[10], counts, bytes, types, comm, list++);
    MPI_Ireduce(given[11], got[11], COUNT, MPI_INT, MPI_SUM, root, comm, list++);
    MPI_Iallreduce(given[12], got[12], COUNT, MPI_INT, MPI_SUM, comm, list++);
    MPI_Ireduce_scatter(given[13], got[13], counts, MPI_INT, MPI_SUM, comm, list++);
    MPI_Ireduce_scatter_block(given[14], got[14], COUNT, MPI_INT, MPI_SUM, comm, list++);
    MPI_Iscan(given[15], got[15], COUNT, MPI_INT, MPI_SUM, comm, list++);
    MPI_Iexscan(given[16], got[16], COUNT, MPI_INT, MPI_SUM, comm, list);
}

static void check_rooted(int root) {
    for (int at = 0; at < COUNT; at++) CHECK(given[1][at] == of(root, at));
    for (int kind = 2; kind <= 3 && test_rank == root; kind++)
        for (int at = 0; at < COUNT * test_size; at++) CHECK(got[kind][at] == of(at / COUNT, at % COUNT));
    for (int kind = 4; kind <= 5; kind++)
        for (int at = 0; at < COUNT; at++) CHECK(got[kind][at] == of(root, COUNT * test_rank + at));
    for (int at = 0; at < COUNT && test_rank == root; at++) CHECK(got[11][at] == sum_to(test_size - 1, at));
}

static void check_others(void) {
    for (int at = 0; at < COUNT * test_size; at++) {
        const int from = at / COUNT, place = at % COUNT;
        CHECK(got[6][at] == of(from, place) && got[7][at] == of(from, place));
        for (int kind = 8; kind <= 10; kind++) CHECK(got[kind][at] == of(from, COUNT * test_rank + place));
    }
    for (int at = 0; at < COUNT; at++) {
        CHECK(got[12][at] == sum_to(test_size - 1, at));
        CHECK(got[13][at] == sum_to(test_size - 1, COUNT * test_rank + at));
        CHECK(got[14][at] == sum_to(test_size - 1, COUNT * test_rank + at));
        CHECK(got[15][at] == sum_to(test_rank, at));
        CHECK(test_rank == 0 || got[16][at] == sum_to(test_rank - 1, at));
    }
}

/* All at once; each rank ends them in an order of its own. */
static void all_at_once(MPI_Comm comm, int root) {
    MPI_Request list[KINDS];
    fill_all();
    begin_first(comm, root, list);
    begin_others(comm, root, list + 9);
    for (int step = 0; step < KINDS; step++) {
        MPI_Request *own = &list[(step * 5 + test_rank * 3) % KINDS];
        int is_done = 0;
        if (step % 3 == 0)
            while (!is_done) MPI_Test(own, &is_done, MPI_STATUS_IGNORE);
        else MPI_Wait(own, MPI_STATUS_IGNORE);
        CHECK(*own == MPI_REQUEST_NULL);
    }
    check_rooted(root);
    check_others();
}

/* Collectives that wait, and messages, between the beginning of one and its end: at some ranks before its end, at the
 * others behind it. */
static void other_calls_between(void) {
    int own = of(test_rank, 0), sum = -1, twice = -1, next = (test_rank + 1) % test_size, all[MOST];
    const int before = (test_rank + test_size - 1) % test_size;
    MPI_Request requests[2];
    MPI_Comm copy;
    MPI_Iscan(&own, &sum, 1, MPI_INT, MPI_SUM, MPI_COMM_WORLD, &requests[0]);
    MPI_Iallgather(&own, 1, MPI_INT, all, 1, MPI_INT, MPI_COMM_WORLD, &requests[1]);
    if (test_rank % 2 == 0) MPI_Waitall(2, requests, MPI_STATUSES_IGNORE);
    MPI_Barrier(MPI_COMM_WORLD);
    MPI_Sendrecv(&own, 1, MPI_INT, next, 0, &twice, 1, MPI_INT, before, 0, MPI_COMM_WORLD, MPI_STATUS_IGNORE);
    MPI_Comm_dup(MPI_COMM_WORLD, &copy);
    if (test_rank == 1) MPI_Waitall(2, requests, MPI_STATUSES_IGNORE);
    MPI_Barrier(copy);
    MPI_Comm_free(&copy);
    MPI_Waitall(2, requests, MPI_STATUSES_IGNORE);
    CHECK(sum == sum_to(test_rank, 0) && twice == of(before, 0));
    for (int member = 0; member < test_size; member++) CHECK(all[member] == of(member, 0));
}

/* Collectives of two communicators may be begun in any order: each rank takes another one first. */
static void two_communicators(void) {
    MPI_Comm both[2];
    MPI_Request list[2];
    int own[2], all[2][MOST];
    for (int which = 0; which < 2; which++) MPI_Comm_dup(MPI_COMM_WORLD, &both[which]);
    for (int step = 0; step < 2; step++) {
        const int which = (step + test_rank) % 2;
        own[which] = of(test_rank, which);
        MPI_Iallgather(&own[which], 1, MPI_INT, all[which], 1, MPI_INT, both[which], &list[which]);
    }
    MPI_Waitall(2, list, MPI_STATUSES_IGNORE);
    for (int which = 0; which < 2; which++)
        for (int member = 0; member < test_size; member++) CHECK(all[which][member] == of(member, which));
    for (int which = 0; which < 2; which++) MPI_Comm_free(&both[which]);
}

/* A communicator, a type and an operation stay until a collective is at its end, though the program frees them. */
static void sum_all(void *invec, void *inoutvec, int *len, MPI_Datatype *datatype) {
    (void)datatype;
    for (int at = 0; at < *len; at++) ((int *)inoutvec)[at] += ((int *)invec)[at];
}

static void freed_before(void) {
    MPI_Comm copy;
    MPI_Op op;
    MPI_Datatype one;
    MPI_Request request;
    int own = of(test_rank, 1), sum = -1;
    MPI_Comm_dup(MPI_COMM_WORLD, &copy);
    MPI_Op_create(sum_all, 1, &op);
    MPI_Type_contiguous(1, MPI_INT, &one);
    MPI_Type_commit(&one);
    MPI_Iallreduce(&own, &sum, 1, one, op, copy, &request);
    MPI_Comm_free(&copy);
    MPI_Op_free(&op);
    MPI_Type_free(&one);
    MPI_Wait(&request, MPI_STATUS_IGNORE);
    CHECK(sum == sum_to(test_size - 1, 1));
}

/* Nobody leaves a barrier before all have entered it: rank 0 enters once all others have looked in vain. */
static void nobody_leaves_early(MPI_Comm comm) {
    int is_done = 0, size, rank;
    MPI_Request request;
    MPI_Comm_size(comm, &size);
    MPI_Comm_rank(comm, &rank);
    for (int last = 0; last < size; last++) {
        is_done = 0;
        if (rank != last) {
            MPI_Ibarrier(comm, &request);
            for (int look = 0; look < 200; look++) {
                MPI_Test(&request, &is_done, MPI_STATUS_IGNORE);
                CHECK(!is_done);
                if (is_done) break;
            }
            MPI_Send(NULL, 0, MPI_INT, last, 9, comm);
        } else {
            for (int other = 1; other < size; other++)
                MPI_Recv(NULL, 0, MPI_INT, MPI_ANY_SOURCE, 9, comm, MPI_STATUS_IGNORE);
            MPI_Ibarrier(comm, &request);
        }
        MPI_Wait(&request, MPI_STATUS_IGNORE);
    }
}

/* A rank may be far ahead. */
static void far_ahead(void) {
    enum { ROUNDS = 300 };
    static int values[ROUNDS];
    MPI_Request list[ROUNDS];
    for (int round = 0; round < ROUNDS; round++) {
        values[round] = test_rank == round % test_size ? of(round, 3) : -1;
        MPI_Ibcast(&values[round], 1, MPI_INT, round % test_size, MPI_COMM_WORLD, &list[round]);
    }
    MPI_Waitall(ROUNDS, list, MPI_STATUSES_IGNORE);
    for (int round = 0; round < ROUNDS; round++) CHECK(values[round] == of(round, 3));
}

int main(int argc, char **argv) {
    MPI_Comm turned;
    test_begin(&argc, &argv);
    for (int root = 0; root < test_size; root++) all_at_once(MPI_COMM_WORLD, root);
    MPI_Comm_split(MPI_COMM_WORLD, 0, test_rank, &turned);
    all_at_once(turned, 0);
    MPI_Comm_free(&turned);
    other_calls_between();
    two_communicators();
    freed_before();
    nobody_leaves_early(MPI_COMM_WORLD);
    far_ahead();
    return test_end();
}
