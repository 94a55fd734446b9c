/* The left fold of floats in the order of the ranks, by C's own operations: what tools/random/float_folds/run
 * compares with.
 *
 *   left_fold < ROWS     a row for each reduction: TYPE OPERATION MEMBERS COUNT, and then each member's patterns in hex
 *
 * TYPE is float32 or float64, OPERATION max, min, sum or prod. For each row the patterns of the result are written
 * in hex; a NaN that an addition or a multiplication makes is the quiet one without a sign. Of MAX and MIN a NaN
 * wins, the lower rank's first, and -0 is below 0 (IEEE 754-2019, maximum and minimum). */
#include <inttypes.h>
#include <math.h>
#include <stdbool.h>
#include <stdio.h>
#include <stdlib.h>
#include <string.h>

enum { MOST = 64 };

static double double_of(uint64_t pattern) {
    double value;
    memcpy(&value, &pattern, sizeof value);
    return value;
}

static float float_of(uint64_t pattern) {
    uint32_t low = (uint32_t)pattern;
    float value;
    memcpy(&value, &low, sizeof value);
    return value;
}

static uint64_t pattern_of_double(double value) {
    uint64_t pattern;
    if (isnan(value)) return UINT64_C(0x7ff8000000000000);
    memcpy(&pattern, &value, sizeof pattern);
    return pattern;
}

static uint64_t pattern_of_float(float value) {
    uint32_t pattern;
    if (isnan(value)) return UINT64_C(0x7fc00000);
    memcpy(&pattern, &value, sizeof pattern);
    return pattern;
}

static uint64_t added(bool is_long, uint64_t first, uint64_t second) {
    if (is_long) return pattern_of_double(double_of(first) + double_of(second));
    return pattern_of_float(float_of(first) + float_of(second));
}

static uint64_t multiplied(bool is_long, uint64_t first, uint64_t second) {
    if (is_long) return pattern_of_double(double_of(first) * double_of(second));
    return pattern_of_float(float_of(first) * float_of(second));
}

/* The greater of two, or the lesser; both types fit a double. */
static uint64_t chosen(bool is_long, bool wants_greater, uint64_t first, uint64_t second) {
    double a = is_long ? double_of(first) : (double)float_of(first);
    double b = is_long ? double_of(second) : (double)float_of(second);
    if (isnan(a)) return first;
    if (isnan(b)) return second;
    bool is_second = wants_greater ? a < b : b < a;
    if (a == b) is_second = wants_greater ? signbit(a) && !signbit(b) : signbit(b) && !signbit(a);
    return is_second ? second : first;
}

static uint64_t combined(bool is_long, const char *operation, uint64_t first, uint64_t second) {
    if (strcmp(operation, "sum") == 0) return added(is_long, first, second);
    if (strcmp(operation, "prod") == 0) return multiplied(is_long, first, second);
    return chosen(is_long, strcmp(operation, "max") == 0, first, second);
}

/* Reads the patterns of one row, folds them and writes the result; false where the row isn't whole. */
static bool fold_row(bool is_long, const char *operation, size_t members, size_t count) {
    uint64_t all[MOST];
    for (size_t member = 0; member < members; member++) {
        for (size_t place = 0; place < count; place++) {
            uint64_t next;
            if (scanf("%" SCNx64, &next) != 1) return false;
            all[place] = member == 0 ? next : combined(is_long, operation, all[place], next);
        }
    }
    for (size_t place = 0; place < count; place++) printf("%s%" PRIx64, place == 0 ? "" : " ", all[place]);
    putchar('\n');
    return true;
}

int main(void) {
    char type[16], operation[16];
    size_t members, count;
    while (scanf("%15s %15s %zu %zu", type, operation, &members, &count) == 4) {
        if (count > MOST || !fold_row(strcmp(type, "float64") == 0, operation, members, count)) return EXIT_FAILURE;
    }
    return EXIT_SUCCESS;
}
