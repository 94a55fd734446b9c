/* Collectives of many members and short blocks, whose blocks go on by way of others: in place or not, of derived types,
 * several at once (MPI 3.1, 5.7, 5.8, 5.12). */
#include "test.h"

enum { MOST = 16, LONGEST = 400 };

static int given[MOST * LONGEST], got[MOST * LONGEST], more[MOST * LONGEST];

static int of(int from, int to, int at) { return from * 10000 + to * 500 + at; }

static void hand_in(int count) {
    for (int to = 0; to < test_size; to++)
        for (int at = 0; at < count; at++) given[to * count + at] = of(test_rank, to, at);
    memset(got, 0, sizeof got);
}

static void check_alltoall(const int *result, int count) {
    for (int from = 0; from < test_size; from++)
        for (int at = 0; at < count; at++) CHECK(result[from * count + at] == of(from, test_rank, at));
}

static void check_allgather(const int *result, int count, int step) {
    for (int from = 0; from < test_size; from++)
        for (int at = 0; at < count; at++) CHECK(result[(from * count + at) * step] == of(from, 0, at));
}

static void exchange(int count) {
    hand_in(count);
    MPI_Alltoall(given, count, MPI_INT, got, count, MPI_INT, MPI_COMM_WORLD);
    check_alltoall(got, count);
    MPI_Alltoall(MPI_IN_PLACE, 0, MPI_INT, given, count, MPI_INT, MPI_COMM_WORLD);
    check_alltoall(given, count);
}

static void gather(int count) {
    hand_in(count);
    MPI_Allgather(given, count, MPI_INT, got, count, MPI_INT, MPI_COMM_WORLD);
    check_allgather(got, count, 1);
    memset(got, 0, sizeof got);
    memcpy(got + test_rank * count, given, (size_t)count * sizeof *given);
    MPI_Allgather(MPI_IN_PLACE, 0, MPI_INT, got, count, MPI_INT, MPI_COMM_WORLD);
    check_allgather(got, count, 1);
}

/* Every other number of the result is its own. */
static void gather_strided(int count) {
    MPI_Datatype every_other, numbers;
    MPI_Type_vector(count, 1, 2, MPI_INT, &every_other);
    MPI_Type_create_resized(every_other, 0, (MPI_Aint)sizeof(int) * 2 * count, &numbers);
    MPI_Type_commit(&numbers);
    hand_in(count);
    MPI_Allgather(given, count, MPI_INT, got, 1, numbers, MPI_COMM_WORLD);
    check_allgather(got, count, 2);
    for (int at = 0; at < test_size * count; at++) CHECK(got[2 * at + 1] == 0);
    MPI_Type_free(&every_other);
    MPI_Type_free(&numbers);
}

/* Begun together; what one rank begins first others end first. */
static void all_at_once(int count) {
    MPI_Request list[4];
    int sum = 0, root = test_size - 1, told = test_rank == root ? 77 : 0;
    hand_in(count);
    MPI_Ialltoall(given, count, MPI_INT, got, count, MPI_INT, MPI_COMM_WORLD, &list[0]);
    MPI_Iallgather(given, count, MPI_INT, more, count, MPI_INT, MPI_COMM_WORLD, &list[1]);
    MPI_Iallreduce(&test_rank, &sum, 1, MPI_INT, MPI_SUM, MPI_COMM_WORLD, &list[2]);
    MPI_Ibcast(&told, 1, MPI_INT, root, MPI_COMM_WORLD, &list[3]);
    for (int at = 0; at < 4; at++) MPI_Wait(&list[(at + test_rank) % 4], MPI_STATUS_IGNORE);
    check_alltoall(got, count);
    check_allgather(more, count, 1);
    CHECK(sum == test_size * (test_size - 1) / 2);
    CHECK(told == 77);
}

/* Each reduction at each root; floats have the bits of the left fold. */
static void reduce(void) {
    float own = 1.0F / (float)(test_rank + 3), expected = 1.0F / 3, made = 0, told = 0;
    MPI_Request list[2];
    for (int rank = 1; rank < test_size; rank++) expected += 1.0F / (float)(rank + 3);
    for (int root = 0; root < test_size; root++) {
        int least = 0, mine = 100 - test_rank;
        MPI_Ireduce(&own, &made, 1, MPI_FLOAT, MPI_SUM, root, MPI_COMM_WORLD, &list[0]);
        MPI_Ireduce(&mine, &least, 1, MPI_INT, MPI_MIN, root, MPI_COMM_WORLD, &list[1]);
        MPI_Waitall(2, list, MPI_STATUSES_IGNORE);
        CHECK(test_rank != root || (memcmp(&made, &expected, sizeof made) == 0 && least == 101 - test_size));
    }
    MPI_Iallreduce(&own, &told, 1, MPI_FLOAT, MPI_SUM, MPI_COMM_WORLD, &list[0]);
    MPI_Wait(&list[0], MPI_STATUS_IGNORE);
    CHECK(memcmp(&told, &expected, sizeof told) == 0);
}

/* No rank is past it before all have entered: the last one to enter has sent by then. */
static void barrier(void) {
    for (int late = 0; late < test_size; late++) {
        MPI_Request request;
        int is_there = 0, word = 5;
        if (test_rank == late)
            for (int to = 0; to < test_size; to++)
                if (to != late) MPI_Send(&word, 1, MPI_INT, to, late, MPI_COMM_WORLD);
        MPI_Ibarrier(MPI_COMM_WORLD, &request);
        MPI_Wait(&request, MPI_STATUS_IGNORE);
        if (test_rank == late) continue;
        for (int look = 0; look < 100000 && !is_there; look++)
            MPI_Iprobe(late, late, MPI_COMM_WORLD, &is_there, MPI_STATUS_IGNORE);
        CHECK(is_there);
        MPI_Recv(&word, 1, MPI_INT, late, late, MPI_COMM_WORLD, MPI_STATUS_IGNORE);
    }
}

int main(int argc, char **argv) {
    test_begin(&argc, &argv);
    CHECK(test_size <= MOST);
    const int counts[] = {0, 1, 3, 64, 65, LONGEST};
    for (size_t at = 0; at < sizeof counts / sizeof *counts; at++) {
        exchange(counts[at]);
        gather(counts[at]);
        if (counts[at] > 0) gather_strided(counts[at] / 2 + 1);
        all_at_once(counts[at]);
    }
    reduce();
    barrier();
    return test_end();
}
