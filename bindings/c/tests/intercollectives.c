/* Collectives over an intercommunicator (MPI 3.1, 5.2.2, 5.2.3), blocking and nonblocking. */
#include "test.h"

static MPI_Comm inter;
static int is_upper, own_size, other_size, own_rank;
static bool is_later; /* whether nonblocking calls are made */

enum { LENGTH = 3 };

/* What the member of a group hands in at a place. */
static int item(int upper, int rank, int at) { return 10000 * upper + 100 * rank + at + 1; }

static void end(MPI_Request *request) {
    if (is_later) MPI_Wait(request, MPI_STATUS_IGNORE);
}

/* The root is a rank of this group: what each member says of it. */
static int root_of(int upper, int rank) {
    if (upper != is_upper) return rank;
    return rank == own_rank ? MPI_ROOT : MPI_PROC_NULL;
}

static void check_broadcast(int upper, int root) {
    int row[LENGTH];
    MPI_Request request;
    const int own = root_of(upper, root);
    for (int at = 0; at < LENGTH; at++) row[at] = own == MPI_ROOT ? item(upper, root, at) : -1;
    if (is_later) MPI_Ibcast(row, LENGTH, MPI_INT, own, inter, &request);
    else MPI_Bcast(row, LENGTH, MPI_INT, own, inter);
    end(&request);
    for (int at = 0; at < LENGTH; at++) CHECK(row[at] == (own == MPI_PROC_NULL ? -1 : item(upper, root, at)));
}

static void check_gather(int upper, int root) {
    int row[LENGTH], *all = calloc((size_t)other_size * LENGTH, sizeof *all);
    MPI_Request request;
    const int own = root_of(upper, root);
    for (int at = 0; at < LENGTH; at++) row[at] = item(is_upper, own_rank, at);
    if (is_later) MPI_Igather(row, LENGTH, MPI_INT, all, LENGTH, MPI_INT, own, inter, &request);
    else MPI_Gather(row, LENGTH, MPI_INT, all, LENGTH, MPI_INT, own, inter);
    end(&request);
    for (int at = 0; at < other_size * LENGTH; at++)
        CHECK(all[at] == (own == MPI_ROOT ? item(!is_upper, at / LENGTH, at % LENGTH) : 0));
    free(all);
}

static void check_scatter(int upper, int root) {
    int row[LENGTH] = {0}, *all = calloc((size_t)other_size * LENGTH, sizeof *all);
    MPI_Request request;
    const int own = root_of(upper, root);
    for (int at = 0; at < other_size * LENGTH; at++) all[at] = item(is_upper, at / LENGTH, at % LENGTH);
    if (is_later) MPI_Iscatter(all, LENGTH, MPI_INT, row, LENGTH, MPI_INT, own, inter, &request);
    else MPI_Scatter(all, LENGTH, MPI_INT, row, LENGTH, MPI_INT, own, inter);
    end(&request);
    for (int at = 0; at < LENGTH; at++) CHECK(row[at] == (own >= 0 ? item(upper, own_rank, at) : 0));
    free(all);
}

/* Member r hands in, and gets, r + 1 items, each behind a gap. */
static void check_with_counts(int upper, int root) {
    const int own = root_of(upper, root);
    int *counts = calloc((size_t)other_size, sizeof *counts), *places = calloc((size_t)other_size, sizeof *places);
    int whole = 0, *row = calloc((size_t)own_size, sizeof *row), *all;
    MPI_Request request;
    for (int rank = 0; rank < other_size; rank++) counts[rank] = rank + 1, places[rank] = whole + 1, whole += rank + 2;
    all = calloc((size_t)whole, sizeof *all);
    for (int at = 0; at <= own_rank; at++) row[at] = item(is_upper, own_rank, at);
    if (is_later) MPI_Igatherv(row, own_rank + 1, MPI_INT, all, counts, places, MPI_INT, own, inter, &request);
    else MPI_Gatherv(row, own_rank + 1, MPI_INT, all, counts, places, MPI_INT, own, inter);
    end(&request);
    for (int rank = 0; own == MPI_ROOT && rank < other_size; rank++) {
        CHECK(all[places[rank] - 1] == 0);
        for (int at = 0; at <= rank; at++) CHECK(all[places[rank] + at] == item(!is_upper, rank, at));
    }
    memset(row, 0, (size_t)own_size * sizeof *row);
    if (is_later) MPI_Iscatterv(all, counts, places, MPI_INT, row, own_rank + 1, MPI_INT, own, inter, &request);
    else MPI_Scatterv(all, counts, places, MPI_INT, row, own_rank + 1, MPI_INT, own, inter);
    end(&request);
    for (int at = 0; at <= own_rank; at++) CHECK(row[at] == (own >= 0 ? item(is_upper, own_rank, at) : 0));
    free(counts);
    free(places);
    free(row);
    free(all);
}

/* An operation that doesn't commute: of two numbers, three times the first and the second. */
static void thrice(void *in, void *both, int *count, MPI_Datatype *type) {
    (void)type;
    for (int at = 0; at < *count; at++) ((int *)both)[at] += 3 * ((int *)in)[at];
}

/* What a group's items at a place become. */
static int folded(int upper, int size, int at, bool is_sum) {
    int all = item(upper, 0, at);
    for (int rank = 1; rank < size; rank++) all = item(upper, rank, at) + (is_sum ? all : 3 * all);
    return all;
}

static void check_reduce(int upper, int root, MPI_Op op) {
    int row[LENGTH], result[LENGTH] = {0};
    MPI_Request request;
    const int own = root_of(upper, root);
    for (int at = 0; at < LENGTH; at++) row[at] = item(is_upper, own_rank, at);
    if (is_later) MPI_Ireduce(row, result, LENGTH, MPI_INT, op, own, inter, &request);
    else MPI_Reduce(row, result, LENGTH, MPI_INT, op, own, inter);
    end(&request);
    for (int at = 0; at < LENGTH; at++)
        CHECK(result[at] == (own == MPI_ROOT ? folded(!is_upper, other_size, at, op == MPI_SUM) : 0));
}

static void check_allreduce(MPI_Op op) {
    int row[LENGTH], result[LENGTH] = {0};
    MPI_Request request;
    for (int at = 0; at < LENGTH; at++) row[at] = item(is_upper, own_rank, at);
    if (is_later) MPI_Iallreduce(row, result, LENGTH, MPI_INT, op, inter, &request);
    else MPI_Allreduce(row, result, LENGTH, MPI_INT, op, inter);
    end(&request);
    for (int at = 0; at < LENGTH; at++) CHECK(result[at] == folded(!is_upper, other_size, at, op == MPI_SUM));
}

/* Both groups have as many items in all; how they are shared is each group's matter. */
static void check_reduce_scatter(MPI_Op op) {
    const int whole = own_size * other_size * 2;
    int *row = calloc((size_t)whole, sizeof *row), *counts = calloc((size_t)own_size, sizeof *counts);
    int *result = calloc((size_t)whole, sizeof *result), before = 0;
    MPI_Request request;
    for (int at = 0; at < whole; at++) row[at] = item(is_upper, own_rank, at);
    for (int rank = 0; rank < own_size; rank++) counts[rank] = 2 * other_size;
    if (own_size > 1) counts[0]--, counts[own_size - 1]++;
    for (int rank = 0; rank < own_rank; rank++) before += counts[rank];
    if (is_later) MPI_Ireduce_scatter(row, result, counts, MPI_INT, op, inter, &request);
    else MPI_Reduce_scatter(row, result, counts, MPI_INT, op, inter);
    end(&request);
    for (int at = 0; at < whole; at++)
        CHECK(result[at] == (at < counts[own_rank] ? folded(!is_upper, other_size, before + at, op == MPI_SUM) : 0));
    const int each = 2 * other_size;
    memset(result, 0, (size_t)whole * sizeof *result);
    if (is_later) MPI_Ireduce_scatter_block(row, result, each, MPI_INT, op, inter, &request);
    else MPI_Reduce_scatter_block(row, result, each, MPI_INT, op, inter);
    end(&request);
    for (int at = 0; at < each; at++)
        CHECK(result[at] == folded(!is_upper, other_size, each * own_rank + at, op == MPI_SUM));
    free(row);
    free(counts);
    free(result);
}

/* The lower group hands in LENGTH items each, the upper one none. */
static void check_allgather(void) {
    int row[LENGTH], *all = calloc((size_t)other_size * LENGTH, sizeof *all);
    const int sent = is_upper ? 0 : LENGTH, wanted = is_upper ? LENGTH : 0;
    MPI_Request request;
    for (int at = 0; at < LENGTH; at++) row[at] = item(is_upper, own_rank, at);
    if (is_later) MPI_Iallgather(row, LENGTH, MPI_INT, all, LENGTH, MPI_INT, inter, &request);
    else MPI_Allgather(row, LENGTH, MPI_INT, all, LENGTH, MPI_INT, inter);
    end(&request);
    for (int at = 0; at < other_size * LENGTH; at++) CHECK(all[at] == item(!is_upper, at / LENGTH, at % LENGTH));
    memset(all, 0, (size_t)other_size * LENGTH * sizeof *all);
    if (is_later) MPI_Iallgather(row, sent, MPI_INT, all, wanted, MPI_INT, inter, &request);
    else MPI_Allgather(row, sent, MPI_INT, all, wanted, MPI_INT, inter);
    end(&request);
    for (int at = 0; at < other_size * LENGTH; at++)
        CHECK(all[at] == (is_upper ? item(0, at / LENGTH, at % LENGTH) : 0));
    free(all);
}

/* From rank r to rank s go r + s + 1 items, of which the one at `at` says all three. */
static void check_alltoallv(void) {
    const int most = own_size + other_size;
    int *counts = calloc((size_t)other_size, sizeof *counts), *places = calloc((size_t)other_size, sizeof *places);
    int *out = calloc((size_t)(other_size * most), sizeof *out), *in = calloc((size_t)(other_size * most), sizeof *in);
    MPI_Request request;
    for (int rank = 0; rank < other_size; rank++) {
        counts[rank] = own_rank + rank + 1;
        places[rank] = rank * most;
        for (int at = 0; at < counts[rank]; at++) out[rank * most + at] = item(is_upper, own_rank, 10 * rank + at);
    }
    if (is_later) MPI_Ialltoallv(out, counts, places, MPI_INT, in, counts, places, MPI_INT, inter, &request);
    else MPI_Alltoallv(out, counts, places, MPI_INT, in, counts, places, MPI_INT, inter);
    end(&request);
    for (int rank = 0; rank < other_size; rank++)
        for (int at = 0; at < counts[rank]; at++)
            CHECK(in[rank * most + at] == item(!is_upper, rank, 10 * own_rank + at));
    free(counts);
    free(places);
    free(out);
    free(in);
}

static void check_alltoall(void) {
    int *out = calloc((size_t)other_size, sizeof *out), *in = calloc((size_t)other_size, sizeof *in);
    int *ones = calloc((size_t)other_size, sizeof *ones), *places = calloc((size_t)other_size, sizeof *places);
    MPI_Datatype *types = calloc((size_t)other_size, sizeof *types);
    MPI_Request request;
    for (int rank = 0; rank < other_size; rank++) {
        out[rank] = item(is_upper, own_rank, rank);
        ones[rank] = 1, places[rank] = rank * (int)sizeof *out, types[rank] = MPI_INT;
    }
    for (int turn = 0; turn < 2; turn++) {
        memset(in, 0, (size_t)other_size * sizeof *in);
        if (turn == 0 && is_later) MPI_Ialltoall(out, 1, MPI_INT, in, 1, MPI_INT, inter, &request);
        else if (turn == 0) MPI_Alltoall(out, 1, MPI_INT, in, 1, MPI_INT, inter);
        else if (is_later) MPI_Ialltoallw(out, ones, places, types, in, ones, places, types, inter, &request);
        else MPI_Alltoallw(out, ones, places, types, in, ones, places, types, inter);
        end(&request);
        for (int rank = 0; rank < other_size; rank++) CHECK(in[rank] == item(!is_upper, rank, own_rank));
    }
    free(out);
    free(in);
    free(ones);
    free(places);
    free(types);
}

/* No one leaves before all of the other group have entered: each says by a message that it has, before it does. */
static void check_barrier(void) {
    MPI_Request request;
    int flag = 0;
    for (int turn = 0; turn < 5; turn++) {
        for (int to = 0; to < other_size; to++) MPI_Send(&turn, 1, MPI_INT, to, 20 + turn, inter);
        if (is_later) MPI_Ibarrier(inter, &request);
        else MPI_Barrier(inter);
        end(&request);
        for (int from = 0; from < other_size; from++) {
            MPI_Iprobe(from, 20 + turn, inter, &flag, MPI_STATUS_IGNORE);
            MPI_Recv(&flag, 1, MPI_INT, from, 20 + turn, inter, MPI_STATUS_IGNORE);
            CHECK(flag == turn);
        }
    }
}

/* Several at once, of both groups' roots, and a message of the program beside them. */
static void check_at_once(void) {
    int rows[4] = {0}, sum = 0, got = -1;
    MPI_Request requests[6];
    for (int at = 0; at < 4; at++) {
        const int root = root_of(at % 2, 0);
        if (root == MPI_ROOT) rows[at] = 70 + at;
        MPI_Ibcast(&rows[at], 1, MPI_INT, root, inter, &requests[at]);
    }
    MPI_Iallreduce(&own_rank, &sum, 1, MPI_INT, MPI_SUM, inter, &requests[4]);
    MPI_Irecv(&got, 1, MPI_INT, MPI_ANY_SOURCE, MPI_ANY_TAG, inter, &requests[5]);
    if (own_rank == 0)
        for (int to = 0; to < other_size; to++) MPI_Send(&to, 1, MPI_INT, to, 0, inter);
    MPI_Waitall(6, requests, MPI_STATUSES_IGNORE);
    CHECK(got == own_rank && sum == other_size * (other_size - 1) / 2);
    for (int at = 0; at < 4; at++) CHECK(rows[at] == (at % 2 != is_upper || own_rank == 0 ? 70 + at : 0));
}

static void check_all(MPI_Op own_op) {
    for (int turn = 0; turn < 4; turn++) {
        const int upper = turn % 2, size = upper == is_upper ? own_size : other_size, root = turn / 2 * (size - 1);
        check_broadcast(upper, root);
        check_gather(upper, root);
        check_scatter(upper, root);
        check_with_counts(upper, root);
        check_reduce(upper, root, MPI_SUM);
        check_reduce(upper, root, own_op);
    }
    check_allreduce(MPI_SUM);
    check_allreduce(own_op);
    check_reduce_scatter(MPI_SUM);
    check_reduce_scatter(own_op);
    check_allgather();
    check_alltoall();
    check_alltoallv();
    check_barrier();
}

int main(int argc, char **argv) {
    test_begin(&argc, &argv);
    MPI_Comm half;
    MPI_Op own_op;
    is_upper = test_rank % 3 != 0;
    MPI_Comm_split(MPI_COMM_WORLD, is_upper, test_rank, &half);
    MPI_Comm_size(half, &own_size);
    MPI_Comm_rank(half, &own_rank);
    other_size = test_size - own_size;
    MPI_Intercomm_create(half, own_size - 1, MPI_COMM_WORLD,
                         is_upper                   ? (test_size - 1) / 3 * 3
                         : (test_size - 1) % 3 == 0 ? test_size - 2
                                                    : test_size - 1,
                         3, &inter);
    MPI_Op_create(thrice, 0, &own_op);
    check_all(own_op);
    is_later = true;
    check_all(own_op);
    check_at_once();
    MPI_Op_free(&own_op);
    MPI_Comm_free(&inter);
    MPI_Comm_free(&half);
    return test_end();
}
