/* What the tests share. A test checks conditions, and at its end rank 0 prints `No Errors`, or how many there were. */
#ifndef TEST_H
#define TEST_H

#include <mpi.h>

#include <stdbool.h>
#include <stdio.h>
#include <stdlib.h>
#include <string.h>

static int test_rank, test_size, test_errors;

/* Notes an error, and tells the first ones. */
static inline void test_check(bool is_so, const char *text, const char *file, int line) {
    if (is_so) return;
    if (++test_errors > 10) return;
    fprintf(stderr, "rank %d: %s:%d: not so: %s\n", test_rank, file, line, text);
}
#define CHECK(condition) test_check((condition), #condition, __FILE__, __LINE__)

static inline void test_begin(int *argc, char ***argv) {
    MPI_Init(argc, argv);
    MPI_Comm_rank(MPI_COMM_WORLD, &test_rank);
    MPI_Comm_size(MPI_COMM_WORLD, &test_size);
}

/* The program's status. */
static inline int test_end(void) {
    int all = 0;
    MPI_Reduce(&test_errors, &all, 1, MPI_INT, MPI_SUM, 0, MPI_COMM_WORLD);
    if (test_rank == 0 && all == 0) printf("No Errors\n");
    if (test_rank == 0 && all != 0) printf("%d errors\n", all);
    MPI_Finalize();
    return test_errors != 0;
}

/* The class of what a call answered. */
static inline int class_of(int code) {
    int class = -1;
    MPI_Error_class(code, &class);
    return class;
}

/* A number that depends on all three, and looks like none of them. */
static inline unsigned mixed(unsigned one, unsigned two, unsigned three) {
    unsigned x = one * 2654435761u + two * 2246822519u + three * 3266489917u + 374761393u;
    x ^= x >> 15;
    x *= 2246822519u;
    return x ^ x >> 13;
}

/* Fills a row with bytes that depend on a seed; whether a row is what this seed gives. */
static inline void fill(void *row, size_t length, unsigned seed) {
    for (size_t at = 0; at < length; at++) ((unsigned char *)row)[at] = (unsigned char)mixed(seed, (unsigned)at, 7);
}
static inline bool is_filled(const void *row, size_t length, unsigned seed) {
    for (size_t at = 0; at < length; at++)
        if (((const unsigned char *)row)[at] != (unsigned char)mixed(seed, (unsigned)at, 7)) return false;
    return true;
}

/* Whether all bytes of a row are this one. */
static inline bool is_all(const void *row, size_t length, unsigned char byte) {
    for (size_t at = 0; at < length; at++)
        if (((const unsigned char *)row)[at] != byte) return false;
    return true;
}

/* The basic types that have whole bytes of value: each value of a byte is one of theirs. */
struct named_type {
    MPI_Datatype type;
    const char *name;
    int size;
};
#define NAMED(of_name, c_type)                                                                                         \
    { MPI_##of_name, "MPI_" #of_name, (int)sizeof(c_type) }
#define INTEGER_TYPES                                                                                                  \
    NAMED(CHAR, char), NAMED(SIGNED_CHAR, signed char), NAMED(UNSIGNED_CHAR, unsigned char), NAMED(SHORT, short),      \
        NAMED(UNSIGNED_SHORT, unsigned short), NAMED(INT, int), NAMED(UNSIGNED, unsigned), NAMED(LONG, long),          \
        NAMED(UNSIGNED_LONG, unsigned long), NAMED(LONG_LONG_INT, long long),                                          \
        NAMED(UNSIGNED_LONG_LONG, unsigned long long), NAMED(INT8_T, signed char), NAMED(INT16_T, short),              \
        NAMED(INT32_T, int), NAMED(INT64_T, long), NAMED(UINT8_T, unsigned char), NAMED(UINT16_T, unsigned short),     \
        NAMED(UINT32_T, unsigned), NAMED(UINT64_T, unsigned long)
#define OTHER_TYPES                                                                                                    \
    NAMED(BYTE, char), NAMED(WCHAR, int), NAMED(FLOAT, float), NAMED(DOUBLE, double), NAMED(LONG_DOUBLE, long double), \
        NAMED(C_BOOL, bool), NAMED(AINT, MPI_Aint), NAMED(COUNT, MPI_Count), NAMED(OFFSET, MPI_Offset)

/* Errors are answered, not fatal. */
static inline void return_errors(void) { MPI_Comm_set_errhandler(MPI_COMM_WORLD, MPI_ERRORS_RETURN); }

#endif
