/* Operations of the program (MPI 3.1, 5.9.5): in the order of the ranks, whether they commute or not; MPI_Reduce_local
 * (5.9.7). */
#include "test.h"

#include <math.h>

/* A map x -> a * x + b of numbers of 32 bits; one and then another one is a map, and their order counts. */
struct map {
    unsigned a, b;
};

static int calls;

static void then(void *invec, void *inoutvec, int *len, MPI_Datatype *datatype) {
    const struct map *first = invec;
    struct map *second = inoutvec;
    int size;
    MPI_Type_size(*datatype, &size);
    CHECK(size == (int)sizeof(struct map));
    for (int at = 0; at < *len; at++)
        second[at] = (struct map){first[at].a * second[at].a, second[at].a * first[at].b + second[at].b};
    calls++;
}

static struct map of(int member, int at) {
    return (struct map){mixed((unsigned)member, (unsigned)at, 1), mixed((unsigned)member, (unsigned)at, 2)};
}

/* Those of all members up to one, in order. */
static struct map up_to(int member, int at) {
    struct map all = of(0, at);
    for (int other = 1; other <= member; other++) {
        struct map next = of(other, at);
        all = (struct map){all.a * next.a, next.a * all.b + next.b};
    }
    return all;
}

static bool is_same(struct map one, struct map other) { return one.a == other.a && one.b == other.b; }

static void own_operation(MPI_Datatype type, MPI_Op op, int count) {
    struct map own[8 * 64], got[8 * 64];
    for (int at = 0; at < 8 * 64; at++) own[at] = of(test_rank, at);
    CHECK(MPI_Allreduce(own, got, count, type, op, MPI_COMM_WORLD) == MPI_SUCCESS);
    for (int at = 0; at < count; at++) CHECK(is_same(got[at], up_to(test_size - 1, at)));
    for (int root = 0; root < test_size; root++) {
        memcpy(got, own, sizeof got);
        CHECK(MPI_Reduce(test_rank == root ? MPI_IN_PLACE : own, got, count, type, op, root, MPI_COMM_WORLD) == 0);
        for (int at = 0; test_rank == root && at < count; at++) CHECK(is_same(got[at], up_to(test_size - 1, at)));
    }
    CHECK(MPI_Scan(own, got, count, type, op, MPI_COMM_WORLD) == MPI_SUCCESS);
    for (int at = 0; at < count; at++) CHECK(is_same(got[at], up_to(test_rank, at)));
    CHECK(MPI_Exscan(own, got, count, type, op, MPI_COMM_WORLD) == MPI_SUCCESS);
    for (int at = 0; test_rank > 0 && at < count; at++) CHECK(is_same(got[at], up_to(test_rank - 1, at)));
    CHECK(MPI_Reduce_scatter_block(own, got, count, type, op, MPI_COMM_WORLD) == MPI_SUCCESS);
    for (int at = 0; at < count; at++) CHECK(is_same(got[at], up_to(test_size - 1, test_rank * count + at)));
    for (int at = 0; at < 8 * 64; at++) CHECK(is_same(own[at], of(test_rank, at)));
}

static void handles(void) {
    MPI_Op op, stale;
    int commutes = -1;
    CHECK(MPI_Op_commutative(MPI_SUM, &commutes) == MPI_SUCCESS && commutes == 1);
    MPI_Op_create(then, 0, &op);
    CHECK(MPI_Op_commutative(op, &commutes) == MPI_SUCCESS && commutes == 0);
    stale = op;
    CHECK(MPI_Op_free(&op) == MPI_SUCCESS && op == MPI_OP_NULL);
    CHECK(class_of(MPI_Op_commutative(stale, &commutes)) == MPI_ERR_OP);
    CHECK(class_of(MPI_Op_free(&op)) == MPI_ERR_OP);
    op = MPI_MAX;
    CHECK(class_of(MPI_Op_free(&op)) == MPI_ERR_OP && op == MPI_MAX);
    op = MPI_REPLACE;
    CHECK(class_of(MPI_Op_free(&op)) == MPI_ERR_OP && op == MPI_REPLACE);
    MPI_Op_create(then, 1, &op);
    CHECK(MPI_Op_commutative(op, &commutes) == MPI_SUCCESS && commutes == 1);
    CHECK(op != stale);
    CHECK(MPI_Op_f2c(MPI_Op_c2f(op)) == op && MPI_Op_f2c(MPI_Op_c2f(MPI_MAXLOC)) == MPI_MAXLOC);
    CHECK(MPI_Op_f2c(MPI_Op_c2f(MPI_OP_NULL)) == MPI_OP_NULL);
    MPI_Op_free(&op);
}

/* Those of windows reduce nothing (11.3.4). */
static void of_windows(void) {
    const MPI_Op both[] = {MPI_REPLACE, MPI_NO_OP};
    int own = 1, all = 2;
    for (int at = 0; at < 2; at++) {
        CHECK(class_of(MPI_Allreduce(&own, &all, 1, MPI_INT, both[at], MPI_COMM_WORLD)) == MPI_ERR_OP);
        CHECK(class_of(MPI_Scan(&own, &all, 1, MPI_INT, both[at], MPI_COMM_WORLD)) == MPI_ERR_OP);
        CHECK(class_of(MPI_Reduce_local(&own, &all, 1, MPI_INT, both[at])) == MPI_ERR_OP && all == 2);
        CHECK(MPI_Op_f2c(MPI_Op_c2f(both[at])) == both[at] && both[at] != MPI_OP_NULL);
    }
    CHECK(MPI_REPLACE != MPI_NO_OP);
}

/* As reductions do it: NaN, -0, sums that wrap. */
static void local(void) {
    double low[4] = {1, (double)NAN, 0.0, 7}, high[4] = {2, 3, -0.0, (double)NAN};
    int ones[3] = {2147483647, -5, 9}, others[3] = {1, 4, 9};
    CHECK(MPI_Reduce_local(low, high, 4, MPI_DOUBLE, MPI_MIN) == MPI_SUCCESS);
    CHECK(high[0] == 1 && isnan(high[1]) && signbit(high[2]) && isnan(high[3]));
    CHECK(low[0] == 1 && isnan(low[1]) && !signbit(low[2]) && low[3] == 7);
    CHECK(MPI_Reduce_local(ones, others, 3, MPI_INT, MPI_SUM) == MPI_SUCCESS);
    CHECK(others[0] == -2147483647 - 1 && others[1] == -1 && others[2] == 18);
    CHECK(MPI_Reduce_local(ones, others, 0, MPI_INT, MPI_SUM) == MPI_SUCCESS);
    CHECK(class_of(MPI_Reduce_local(ones, others, 1, MPI_FLOAT, MPI_BAND)) == MPI_ERR_OP);
    long double one = 1.5L, other = -0.5L;
    CHECK(MPI_Reduce_local(&one, &other, 1, MPI_LONG_DOUBLE, MPI_SUM) == MPI_SUCCESS && other == 1.0L && one == 1.5L);
}

int main(int argc, char **argv) {
    MPI_Datatype pair;
    MPI_Op op;
    test_begin(&argc, &argv);
    return_errors();
    MPI_Type_contiguous(2, MPI_UNSIGNED, &pair);
    MPI_Type_commit(&pair);
    for (int commutes = 0; commutes <= 1; commutes++) {
        MPI_Op_create(then, commutes, &op);
        own_operation(pair, op, 1);
        own_operation(pair, op, 64);
        MPI_Op_free(&op);
    }
    CHECK(test_size == 1 || calls > 0);
    MPI_Type_free(&pair);
    handles();
    of_windows();
    local();
    return test_end();
}
