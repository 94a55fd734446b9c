/* Folds of long doubles: each operation, rounding, signs of zero, NaN, any alignment. */
#include "../../src/folds.h"
#include "unit.h"

#include <float.h>
#include <math.h>

enum { VALUE_BYTES = LDBL_MANT_DIG == 64 ? 10 : sizeof(long double) };

static void check(enum engine_operation operation, long double a, long double b, long double wanted) {
    unsigned char all[1 + sizeof a] = {0}, next[3 + sizeof b] = {0};
    memcpy(all + 1, &a, sizeof a);
    memcpy(next + 3, &b, sizeof b);
    fold_long_doubles(operation, all + 1, next + 3, 1);
    CHECK(memcmp(all + 1, &wanted, VALUE_BYTES) == 0);
    CHECK(memcmp(next + 3, &b, sizeof b) == 0);
}

static void check_numbers(void) {
    const long double infinity = (long double)INFINITY;
    check(ENGINE_SUM, 1e40L, 1, 1e40L);
    check(ENGINE_SUM, 1, LDBL_EPSILON, 1 + LDBL_EPSILON);
    check(ENGINE_SUM, LDBL_MAX, LDBL_MAX, infinity);
    check(ENGINE_SUM, -0.0L, -0.0L, -0.0L);
    check(ENGINE_PROD, 3, -7, -21);
    check(ENGINE_PROD, LDBL_MIN, 0.5L, LDBL_MIN / 2);
    check(ENGINE_MAX, 2, 3, 3);
    check(ENGINE_MAX, 3, -3, 3);
    check(ENGINE_MIN, 2, -3, -3);
    check(ENGINE_MIN, -infinity, 0, -infinity);
    check(ENGINE_MAX, -0.0L, 0.0L, 0.0L);
    check(ENGINE_MAX, 0.0L, -0.0L, 0.0L);
    check(ENGINE_MIN, 0.0L, -0.0L, -0.0L);
    check(ENGINE_MIN, -0.0L, 0.0L, -0.0L);
}

/* What is no number is the result, wherever it stands; of two the first one is. */
static void check_no_numbers(void) {
    const long double none = (long double)NAN, other = -none;
    for (enum engine_operation it = ENGINE_MAX; it <= ENGINE_MIN; it++) {
        check(it, none, 1, none);
        check(it, 1, none, none);
        check(it, none, other, none);
        check(it, other, none, other);
    }
}

/* What a sum or a product makes that is no number is the quiet one without a sign, whatever it was made of. */
static void check_made(void) {
    const long double infinity = (long double)INFINITY, none = (long double)NAN;
    check(ENGINE_SUM, infinity, -infinity, none);
    check(ENGINE_SUM, -infinity, infinity, none);
    check(ENGINE_PROD, 0, infinity, none);
    check(ENGINE_PROD, -infinity, 0, none);
    for (enum engine_operation it = ENGINE_SUM; it <= ENGINE_PROD; it++) {
        check(it, -none, 1, none);
        check(it, 1, -none, none);
        check(it, -none, -none, none);
    }
}

/* Whole lists; what lies behind stays. */
static void check_lists(void) {
    long double all[3] = {1, 2, 99}, next[3] = {LDBL_EPSILON, 4, 7};
    fold_long_doubles(ENGINE_SUM, all, next, 2);
    CHECK(all[0] == 1 + LDBL_EPSILON && all[1] == 6 && all[2] == 99);
    fold_long_doubles(ENGINE_PROD, all + 1, next + 1, 1);
    CHECK(all[1] == 24);
    fold_long_doubles(ENGINE_MAX, all, next, 0);
    CHECK(all[0] == 1 + LDBL_EPSILON);
}

/* Just the bytes change that have the value, so the bytes of a result are the same in every run. */
static void check_padding(void) {
    unsigned char all[sizeof(long double)], next[sizeof(long double)];
    long double one = 1, two = 2;
    memset(all, 0x11, sizeof all);
    memset(next, 0x22, sizeof next);
    memcpy(all, &one, VALUE_BYTES);
    memcpy(next, &two, VALUE_BYTES);
    fold_long_doubles(ENGINE_SUM, all, next, 1);
    memcpy(&one, all, sizeof one);
    CHECK(one == 3);
    for (size_t at = VALUE_BYTES; at < sizeof all; at++) CHECK(all[at] == 0x11);
}

int main(void) {
    check_numbers();
    check_no_numbers();
    check_made();
    check_lists();
    check_padding();
    return unit_end();
}
