/* MPI_Scan and MPI_Exscan, MPI_Reduce_scatter and its block form (MPI 3.1, 5.10 and 5.11). */
#include "test.h"

enum { MOST = 8 };

static long of(int member, int at) { return (long)(mixed((unsigned)member, (unsigned)at, 9) % 1000); }

/* The sum of what the members below one hand in. */
static long sum_below(int member, int at) {
    long sum = 0;
    for (int other = 0; other < member; other++) sum += of(other, at);
    return sum;
}

static void scans(int count, bool is_in_place) {
    long *given = calloc((size_t)count + 1, sizeof *given), *got = calloc((size_t)count + 1, sizeof *got);
    for (int at = 0; at < count; at++) given[at] = got[at] = of(test_rank, at);
    CHECK(MPI_Scan(is_in_place ? MPI_IN_PLACE : given, got, count, MPI_LONG, MPI_SUM, MPI_COMM_WORLD) == MPI_SUCCESS);
    for (int at = 0; at < count; at++) CHECK(got[at] == sum_below(test_rank + 1, at));
    for (int at = 0; at < count; at++) CHECK(given[at] == of(test_rank, at));
    for (int at = 0; at < count; at++) got[at] = of(test_rank, at);
    CHECK(MPI_Exscan(is_in_place ? MPI_IN_PLACE : given, got, count, MPI_LONG, MPI_SUM, MPI_COMM_WORLD) == MPI_SUCCESS);
    for (int at = 0; test_rank > 0 && at < count; at++) CHECK(got[at] == sum_below(test_rank, at));
    for (int at = 0; at < count; at++) CHECK(given[at] == of(test_rank, at));
    free(given);
    free(got);
}

static int count_of(int member) { return member == 2 ? 0 : 3 * member + 1; }

static void scattered_sums(bool is_in_place) {
    enum { ROOM = MOST * (3 * MOST + 1) };
    int counts[MOST], before = 0, all = 0;
    long given[ROOM], got[ROOM];
    for (int member = 0; member < test_size; member++) {
        counts[member] = count_of(member);
        if (member < test_rank) before += counts[member];
        all += counts[member];
    }
    for (int at = 0; at < all; at++) given[at] = got[at] = of(test_rank, at);
    CHECK(MPI_Reduce_scatter(is_in_place ? MPI_IN_PLACE : given, got, counts, MPI_LONG, MPI_SUM, MPI_COMM_WORLD) ==
          MPI_SUCCESS);
    for (int at = 0; at < counts[test_rank]; at++) CHECK(got[at] == sum_below(test_size, before + at));
    for (int at = 0; at < 4 * test_size; at++) given[at] = got[at] = of(test_rank, at);
    CHECK(MPI_Reduce_scatter_block(is_in_place ? MPI_IN_PLACE : given, got, 4, MPI_LONG, MPI_SUM, MPI_COMM_WORLD) ==
          MPI_SUCCESS);
    for (int at = 0; at < 4; at++) CHECK(got[at] == sum_below(test_size, 4 * test_rank + at));
}

/* Floats are folded in the order of the ranks: each result has the bits of that sum. */
static void order_of_floats(void) {
    float own = test_rank % 2 == 0 ? 1e8f : 1.0f + (float)test_rank, got = 0, sum = 0;
    CHECK(MPI_Scan(&own, &got, 1, MPI_FLOAT, MPI_SUM, MPI_COMM_WORLD) == MPI_SUCCESS);
    for (int member = 0; member <= test_rank; member++) {
        float other = member % 2 == 0 ? 1e8f : 1.0f + (float)member;
        sum = member == 0 ? other : sum + other;
    }
    CHECK(memcmp(&got, &sum, sizeof sum) == 0);
}

int main(int argc, char **argv) {
    test_begin(&argc, &argv);
    scans(1, false);
    scans(1, true);
    scans(3000, false);
    scans(0, false);
    scattered_sums(false);
    scattered_sums(true);
    order_of_floats();
    return test_end();
}
