/* Reductions of long doubles: see folds.h. */
#include "folds.h"

#include <float.h>
#include <math.h>
#include <stdbool.h>
#include <string.h>

/* The bytes of a long double that have its value. */
#if LDBL_MANT_DIG == 64
enum { VALUE_BYTES = 10 };
#else
enum { VALUE_BYTES = sizeof(long double) };
#endif

/* Neither is a NaN. */
static bool is_below(long double a, long double b) { return a < b || (a == b && signbit(a) && !signbit(b)); }

/* The second one where it is a NaN and the first one isn't, or where it is wanted. */
static long double chosen(long double a, long double b, bool wants_second) {
    if (isnan(a)) return a;
    return isnan(b) || wants_second ? b : a;
}

/* A NaN that is made is the quiet one without a sign, as the engine's own floats have it. */
static long double made(long double result) { return isnan(result) ? (long double)NAN : result; }

static long double combine(enum engine_operation operation, long double a, long double b) {
    switch (operation) {
    case ENGINE_MAX:
        return chosen(a, b, is_below(a, b));
    case ENGINE_MIN:
        return chosen(a, b, is_below(b, a));
    case ENGINE_SUM:
        return made(a + b);
    case ENGINE_PROD:
        return made(a * b);
    default:
        return a;
    }
}

/* Folds two rows into one of them: bytes of a long double that have no value are those that stood there. */
static void fold_rows_into(enum engine_operation operation, const unsigned char *low, const unsigned char *high,
                           unsigned char *into, size_t count) {
    for (size_t at = 0; at < count * sizeof(long double); at += sizeof(long double)) {
        long double a, b;
        memcpy(&a, low + at, sizeof a);
        memcpy(&b, high + at, sizeof b);
        a = combine(operation, a, b);
        memcpy(into + at, &a, VALUE_BYTES);
    }
}

void fold_long_doubles(enum engine_operation operation, void *all, const void *next, size_t count) {
    fold_rows_into(operation, all, next, all, count);
}

void fold_long_doubles_into(enum engine_operation operation, const void *low, void *high, size_t count) {
    fold_rows_into(operation, low, high, high, count);
}
