/* MINLOC, MAXLOC and products of complex numbers: equal values, indices, NaN, the order of operands. */
#include "../../src/pair_folds.h"
#include "unit.h"

#include <math.h>

struct pair_of {
    double value;
    int index;
};

static void check(bool is_greatest, struct pair_of low, struct pair_of high, double value, int index) {
    fold_pairs(PAIR_DOUBLE_INT, is_greatest, &low, &high, 1);
    CHECK((high.value == value || (isnan(value) && isnan(high.value))) && high.index == index);
}

static void check_pairs(void) {
    for (int is_greatest = 0; is_greatest <= 1; is_greatest++) {
        check(is_greatest, (struct pair_of){1, 5}, (struct pair_of){2, 3}, is_greatest ? 2 : 1, is_greatest ? 3 : 5);
        check(is_greatest, (struct pair_of){2, 5}, (struct pair_of){1, 3}, is_greatest ? 2 : 1, is_greatest ? 5 : 3);
        check(is_greatest, (struct pair_of){7, 5}, (struct pair_of){7, 3}, 7, 3);
        check(is_greatest, (struct pair_of){7, 3}, (struct pair_of){7, 5}, 7, 3);
        check(is_greatest, (struct pair_of){(double)NAN, 9}, (struct pair_of){7, 5}, (double)NAN, 9);
        check(is_greatest, (struct pair_of){7, 9}, (struct pair_of){(double)NAN, 5}, (double)NAN, 5);
    }
}

#define CHECK_KIND(kind, value_type, index_type)                                                                       \
    do {                                                                                                               \
        struct {                                                                                                       \
            value_type value;                                                                                          \
            index_type index;                                                                                          \
        } low[2] = {{3, 1}, {4, 2}}, high[2] = {{4, 7}, {3, 8}};                                                       \
        fold_pairs(kind, true, low, high, 2);                                                                          \
        CHECK(high[0].value == 4 && high[0].index == 7 && high[1].value == 4 && high[1].index == 2);                   \
        fold_pairs(kind, false, low, high, 2);                                                                         \
        CHECK(high[0].value == 3 && high[0].index == 1 && high[1].value == 4 && high[1].index == 2);                   \
    } while (0)

static void check_kinds(void) {
    CHECK_KIND(PAIR_FLOAT_INT, float, int);
    CHECK_KIND(PAIR_DOUBLE_INT, double, int);
    CHECK_KIND(PAIR_LONG_INT, long, int);
    CHECK_KIND(PAIR_2INT, int, int);
    CHECK_KIND(PAIR_SHORT_INT, short, int);
    CHECK_KIND(PAIR_LONG_DOUBLE_INT, long double, int);
    CHECK_KIND(PAIR_2INTEGER, int, int);
    CHECK_KIND(PAIR_2REAL, float, float);
    CHECK_KIND(PAIR_2DOUBLE_PRECISION, double, double);
}

#define CHECK_PRODUCT(part)                                                                                            \
    do {                                                                                                               \
        part low[4] = {1, 2, 0, 1}, high[4] = {3, -1, 0, 1};                                                           \
        multiply_complex(sizeof(part), low, high, 2);                                                                  \
        CHECK(high[0] == 5 && high[1] == 5 && high[2] == -1 && high[3] == 0);                                          \
        CHECK(low[0] == 1 && low[1] == 2 && low[2] == 0 && low[3] == 1);                                               \
    } while (0)

int main(void) {
    check_pairs();
    check_kinds();
    CHECK_PRODUCT(float);
    CHECK_PRODUCT(double);
    CHECK_PRODUCT(long double);
    return unit_end();
}
