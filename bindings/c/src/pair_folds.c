/* MINLOC, MAXLOC and products of complex numbers: see pair_folds.h. */
#include "pair_folds.h"

/* The pairs, as C has them (5.9.4). */
#define PAIRS_OF(name, value_type, index_type)                                                                         \
    struct name {                                                                                                      \
        value_type value;                                                                                              \
        index_type index;                                                                                              \
    };                                                                                                                 \
    static bool is_first_##name(bool is_greatest, const struct name *a, const struct name *b) {                        \
        if (a->value != a->value) return true;                                                                         \
        if (b->value != b->value) return false;                                                                        \
        if (a->value == b->value) return a->index <= b->index;                                                         \
        return is_greatest == (a->value > b->value);                                                                   \
    }                                                                                                                  \
    static void fold_##name(bool is_greatest, const struct name *low, struct name *high, size_t count) {               \
        for (size_t at = 0; at < count; at++)                                                                          \
            if (is_first_##name(is_greatest, &low[at], &high[at])) {                                                   \
                high[at].value = low[at].value;                                                                        \
                high[at].index = low[at].index;                                                                        \
            }                                                                                                          \
    }

PAIRS_OF(float_int, float, int)
PAIRS_OF(double_int, double, int)
PAIRS_OF(long_int, long, int)
PAIRS_OF(two_ints, int, int)
PAIRS_OF(short_int, short, int)
PAIRS_OF(long_double_int, long double, int)
PAIRS_OF(two_floats, float, float)
PAIRS_OF(two_doubles, double, double)

void fold_pairs(enum pair pair, bool is_greatest, const void *low, void *high, size_t count) {
    switch (pair) {
    case PAIR_FLOAT_INT:
        fold_float_int(is_greatest, low, high, count);
        break;
    case PAIR_DOUBLE_INT:
        fold_double_int(is_greatest, low, high, count);
        break;
    case PAIR_LONG_INT:
        fold_long_int(is_greatest, low, high, count);
        break;
    case PAIR_2INT:
    case PAIR_2INTEGER:
        fold_two_ints(is_greatest, low, high, count);
        break;
    case PAIR_SHORT_INT:
        fold_short_int(is_greatest, low, high, count);
        break;
    case PAIR_LONG_DOUBLE_INT:
        fold_long_double_int(is_greatest, low, high, count);
        break;
    case PAIR_2REAL:
        fold_two_floats(is_greatest, low, high, count);
        break;
    case PAIR_2DOUBLE_PRECISION:
        fold_two_doubles(is_greatest, low, high, count);
        break;
    case PAIR_NONE:
        break;
    }
}

/* (a + bi) (c + di) without regard of infinities. */
#define PRODUCTS_OF(name, part)                                                                                        \
    static void multiply_##name(const part *low, part *high, size_t count) {                                           \
        for (size_t at = 0; at < 2 * count; at += 2) {                                                                 \
            part real = low[at] * high[at] - low[at + 1] * high[at + 1];                                               \
            part imaginary = low[at] * high[at + 1] + low[at + 1] * high[at];                                          \
            high[at] = real;                                                                                           \
            high[at + 1] = imaginary;                                                                                  \
        }                                                                                                              \
    }

PRODUCTS_OF(floats, float)
PRODUCTS_OF(doubles, double)
PRODUCTS_OF(long_doubles, long double)

void multiply_complex(size_t bytes, const void *low, void *high, size_t count) {
    if (bytes == sizeof(float)) multiply_floats(low, high, count);
    else if (bytes == sizeof(double)) multiply_doubles(low, high, count);
    else if (bytes == sizeof(long double)) multiply_long_doubles(low, high, count);
}
