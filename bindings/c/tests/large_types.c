/* A type of many blocks at regular places takes no memory for each of them (MPI 3.1, 4.1.2). */
#include "test.h"

#include <sys/resource.h>

enum { LARGE = 3000, SMALL = 7, MOST = 8192 /* KiB */ };

/* The most memory that the process has had, in KiB. */
static long most_memory(void) {
    struct rusage usage;
    getrusage(RUSAGE_SELF, &usage);
    return usage.ru_maxrss;
}

/* Columns of square matrices of n rows, as many, each behind the end of the one before it. */
static void columns_of(int n, MPI_Datatype *made) {
    MPI_Datatype column;
    MPI_Type_vector(n, 1, n, MPI_DOUBLE, &column);
    MPI_Type_contiguous(n, column, made);
    MPI_Type_free(&column);
    MPI_Type_commit(made);
}

/* Many items of a type whose blocks are nowhere regular. */
static void items_of(int n, MPI_Datatype *made) {
    int lengths[LARGE], places[LARGE];
    MPI_Datatype item;
    for (int i = 0; i < n; i++) lengths[i] = 1 + i % 2, places[i] = i * (i + 3);
    MPI_Type_indexed(n, lengths, places, MPI_INT, &item);
    MPI_Type_contiguous(n, item, made);
    MPI_Type_free(&item);
}

/* A transposed matrix: its columns, one element behind the other. */
static void transposed(int n, MPI_Datatype *made) {
    MPI_Datatype column, next;
    MPI_Type_vector(n, 1, n, MPI_DOUBLE, &column);
    MPI_Type_create_resized(column, 0, 8, &next);
    MPI_Type_contiguous(n, next, made);
    MPI_Type_free(&column);
    MPI_Type_free(&next);
}

/* An array of structs, and a part of one in three dimensions. */
static void arrays_of(int n, MPI_Datatype *structs, MPI_Datatype *part) {
    MPI_Datatype item, next;
    MPI_Type_create_struct(3, (int[]){1, 1, 1}, (MPI_Aint[]){0, 8, 20}, (MPI_Datatype[]){MPI_INT, MPI_DOUBLE, MPI_CHAR},
                           &item);
    MPI_Type_create_resized(item, 0, 32, &next);
    MPI_Type_create_hvector(n, n, 33 * (MPI_Aint)n, next, structs);
    MPI_Type_create_subarray(3, (int[]){n, n, n}, (int[]){n / 2, n / 3, n / 4}, (int[]){1, 2, 3}, MPI_ORDER_C, next,
                             part);
    MPI_Type_free(&item);
    MPI_Type_free(&next);
}

static void check_compact(void) {
    enum { TYPES = 300, SIDE = 6000 };
    MPI_Datatype types[TYPES];
    long before = most_memory();
    for (int i = 0; i < TYPES; i += 3) {
        transposed(SIDE, &types[i]);
        arrays_of(SIDE / 6, &types[i + 1], &types[i + 2]);
    }
    CHECK(most_memory() - before < MOST);
    int size = -1;
    MPI_Type_size(types[0], &size);
    CHECK(size == SIDE * SIDE * 8);
    for (int i = 0; i < TYPES; i++) MPI_Type_free(&types[i]);
}

static void check_memory(void) {
    enum { TYPES = 5 };
    MPI_Datatype types[TYPES], items;
    long before = most_memory();
    for (int i = 0; i < TYPES; i++) columns_of(LARGE, &types[i]);
    items_of(LARGE / 2, &items);
    CHECK(most_memory() - before < MOST);
    MPI_Type_free(&items);
    MPI_Aint lower, extent;
    int size;
    MPI_Type_size(types[0], &size);
    MPI_Type_get_extent(types[0], &lower, &extent);
    CHECK(size == LARGE * LARGE * 8 && lower == 0);
    CHECK(extent == (MPI_Aint)LARGE * ((LARGE - 1) * LARGE + 1) * 8);
    for (int i = 0; i < TYPES; i++) MPI_Type_free(&types[i]);
}

/* A chain of types, each made of the one before it, which was freed. */
static void check_chain(void) {
    MPI_Datatype type, next;
    int from[2] = {1, 2}, into = 0;
    MPI_Type_contiguous(1, MPI_INT, &type);
    for (int i = 0; i < 200000; i++) {
        MPI_Type_contiguous(1, type, &next);
        MPI_Type_free(&type);
        type = next;
    }
    MPI_Type_commit(&type);
    MPI_Sendrecv(from, 1, type, test_rank, 2, &into, 1, MPI_INT, test_rank, 2, MPI_COMM_WORLD, MPI_STATUS_IGNORE);
    CHECK(into == 1);
    MPI_Type_free(&type);
}

int main(int argc, char **argv) {
    test_begin(&argc, &argv);
    check_compact();
    check_memory();
    check_chain();
    /* What is sent as items of the type comes in their order. */
    static double from[SMALL * ((SMALL - 1) * SMALL + 1)], into[SMALL * SMALL];
    const int extent = (SMALL - 1) * SMALL + 1;
    MPI_Datatype type;
    columns_of(SMALL, &type);
    for (int i = 0; i < SMALL * extent; i++) from[i] = i;
    MPI_Sendrecv(from, 1, type, 0, 1, into, SMALL * SMALL, MPI_DOUBLE, 0, 1, MPI_COMM_SELF, MPI_STATUS_IGNORE);
    for (int i = 0; i < SMALL * SMALL; i++) CHECK(into[i] == i / SMALL * extent + i % SMALL * SMALL);
    memset(from, 0, sizeof from);
    MPI_Sendrecv(into, SMALL * SMALL, MPI_DOUBLE, 0, 1, from, 1, type, 0, 1, MPI_COMM_SELF, MPI_STATUS_IGNORE);
    for (int i = 0; i < SMALL * extent; i++) CHECK(from[i] == (i % extent % SMALL == 0 ? i : 0));
    MPI_Type_free(&type);
    return test_end();
}
