/* Reductions of every integer type by every operation (MPI 3.1, 5.9): at each root, at all members, in place. */
#include "test.h"

#include <limits.h>

enum { COUNT = 11 };

static const MPI_Op operations[] = {MPI_MAX, MPI_MIN,  MPI_SUM,  MPI_PROD, MPI_LAND,
                                    MPI_LOR, MPI_LXOR, MPI_BAND, MPI_BOR,  MPI_BXOR};
enum { OPERATIONS = sizeof operations / sizeof *operations };

/* The elements of a rank: few and small ones, so that nothing overflows; 0 among them. */
static unsigned long element(int rank, int at) { return (mixed((unsigned)rank, (unsigned)at, 5) >> 7) % 5; }

/* A fold of the elements in rank order. */
static unsigned long combined(MPI_Op op, unsigned long a, unsigned long b) {
    if (op == MPI_MAX) return a > b ? a : b;
    if (op == MPI_MIN) return a < b ? a : b;
    if (op == MPI_SUM) return a + b;
    if (op == MPI_PROD) return a * b;
    if (op == MPI_LAND) return a && b;
    if (op == MPI_LOR) return a || b;
    if (op == MPI_LXOR) return !a != !b;
    if (op == MPI_BAND) return a & b;
    if (op == MPI_BOR) return a | b;
    return a ^ b;
}
static unsigned long expected(MPI_Op op, int at) {
    unsigned long all = element(0, at);
    for (int rank = 1; rank < test_size; rank++) all = combined(op, all, element(rank, at));
    return all;
}

/* Puts a number into an element of so many bytes (this machine has the lowest byte first), and reads one. */
static void put(unsigned char *row, int size, int at, unsigned long number) {
    memcpy(row + at * size, &number, (size_t)size);
}
static unsigned long get(const unsigned char *row, int size, int at) {
    unsigned long number = 0;
    memcpy(&number, row + at * size, (size_t)size);
    return number;
}

static void check_row(const unsigned char *row, int size, MPI_Op op) {
    for (int at = 0; at < COUNT; at++) CHECK(get(row, size, at) == expected(op, at));
    CHECK(row[COUNT * size] == 0x77);
}

/* At a root, and at all members. */
static void check_apart(struct named_type it, MPI_Op op, int root) {
    unsigned char own[COUNT * 8], row[COUNT * 8 + 1];
    for (int at = 0; at < COUNT; at++) put(own, it.size, at, element(test_rank, at));
    memset(row, 0x77, sizeof row);
    MPI_Reduce(own, test_rank == root ? row : NULL, COUNT, it.type, op, root, MPI_COMM_WORLD);
    if (test_rank == root) check_row(row, it.size, op);
    else CHECK(is_all(row, sizeof row, 0x77));
    memset(row, 0x77, sizeof row);
    MPI_Allreduce(own, row, COUNT, it.type, op, MPI_COMM_WORLD);
    check_row(row, it.size, op);
}

/* The same in place. */
static void check_in_place(struct named_type it, MPI_Op op, int root) {
    unsigned char row[COUNT * 8 + 1];
    memset(row, 0x77, sizeof row);
    for (int at = 0; at < COUNT; at++) put(row, it.size, at, element(test_rank, at));
    if (test_rank == root) MPI_Reduce(MPI_IN_PLACE, row, COUNT, it.type, op, root, MPI_COMM_WORLD);
    else MPI_Reduce(row, NULL, COUNT, it.type, op, root, MPI_COMM_WORLD);
    if (test_rank == root) check_row(row, it.size, op);
    for (int at = 0; at < COUNT; at++) put(row, it.size, at, element(test_rank, at));
    MPI_Allreduce(MPI_IN_PLACE, row, COUNT, it.type, op, MPI_COMM_WORLD);
    check_row(row, it.size, op);
}

/* Negative numbers, and the ends of the ranges. */
static void check_signs(void) {
    int own = test_rank % 2 == 0 ? -5 - test_rank : 3, most = 0, least = 0;
    long far = test_rank == 0 ? LONG_MIN : LONG_MAX, low = 0;
    unsigned long high = test_rank == 0 ? ULONG_MAX : 1, top = 0;
    signed char small = (signed char)(test_rank == 0 ? -128 : 127), lowest = 0;
    int last_even = (test_size - 1) / 2 * 2;
    MPI_Allreduce(&own, &most, 1, MPI_INT, MPI_MAX, MPI_COMM_WORLD);
    MPI_Allreduce(&own, &least, 1, MPI_INT, MPI_MIN, MPI_COMM_WORLD);
    CHECK(most == (test_size > 1 ? 3 : -5) && least == -5 - last_even);
    MPI_Allreduce(&far, &low, 1, MPI_LONG, MPI_MIN, MPI_COMM_WORLD);
    CHECK(low == LONG_MIN);
    MPI_Allreduce(&high, &top, 1, MPI_UNSIGNED_LONG, MPI_MAX, MPI_COMM_WORLD);
#ifdef KOMBAZILY
    /* MPICH 4.0 and Open MPI 4.1 compare these as signed numbers. */
    CHECK(top == ULONG_MAX);
#endif
    MPI_Allreduce(&small, &lowest, 1, MPI_SIGNED_CHAR, MPI_MIN, MPI_COMM_WORLD);
    CHECK(lowest == -128);
}

/* Truth values and bytes; addresses, counts and offsets. */
static void check_other_types(void) {
    bool own = test_rank == 1, all = true, some = false;
    unsigned char bits = (unsigned char)(1 << test_rank % 8), byte = 0;
    MPI_Aint address = 1000 + test_rank, highest = 0;
    MPI_Count count = test_rank, sum = 0;
    MPI_Offset offset = 2, product = 0;
    MPI_Allreduce(&own, &all, 1, MPI_C_BOOL, MPI_LAND, MPI_COMM_WORLD);
    MPI_Allreduce(&own, &some, 1, MPI_C_BOOL, MPI_LOR, MPI_COMM_WORLD);
    CHECK(!all && some == (test_size > 1));
    MPI_Allreduce(&bits, &byte, 1, MPI_BYTE, MPI_BOR, MPI_COMM_WORLD);
    CHECK(byte == (1 << test_size) - 1);
    MPI_Allreduce(&address, &highest, 1, MPI_AINT, MPI_MAX, MPI_COMM_WORLD);
    CHECK(highest == 1000 + test_size - 1);
    MPI_Allreduce(&count, &sum, 1, MPI_COUNT, MPI_SUM, MPI_COMM_WORLD);
    CHECK(sum == test_size * (test_size - 1) / 2);
    MPI_Allreduce(&offset, &product, 1, MPI_OFFSET, MPI_PROD, MPI_COMM_WORLD);
    CHECK(product == 1 << test_size);
}

/* A row that goes in several parts. */
static void check_long_row(void) {
    const int count = 300000;
    int *own = malloc(sizeof *own * (size_t)count), *all = malloc(sizeof *all * (size_t)count), wrong = 0;
    for (int i = 0; i < count; i++) own[i] = i % 1000 + test_rank;
    MPI_Allreduce(own, all, count, MPI_INT, MPI_SUM, MPI_COMM_WORLD);
    for (int i = 0; i < count; i++) wrong += all[i] != i % 1000 * test_size + test_size * (test_size - 1) / 2;
    CHECK(wrong == 0);
    free(own);
    free(all);
}

int main(int argc, char **argv) {
    const struct named_type types[] = {INTEGER_TYPES};
    test_begin(&argc, &argv);
    for (size_t i = 0; i < sizeof types / sizeof *types; i++)
        for (int j = 0; j < OPERATIONS; j++)
            (((int)i + j) % 3 == 0 ? check_in_place : check_apart)(types[i], operations[j], ((int)i + j) % test_size);
    check_signs();
    check_other_types();
    check_long_row();
    return test_end();
}
