/* Numbers in external32: the bytes of each form, and back; long doubles beside what C computes of their parts. */
#include "../../src/external_numbers.h"
#include "unit.h"

#include <math.h>
#include <stdint.h>

static const struct basic_type bytes = {1, 1, 1, EXTERNAL_BYTES}, wide = {8, 1, 4, EXTERNAL_SIGNED},
                               unsigned_wide = {8, 1, 4, EXTERNAL_UNSIGNED}, truth = {1, 1, 4, EXTERNAL_BOOLEAN},
                               complex_number = {8, 2, 4, EXTERNAL_FLOAT},
                               long_double = {16, 1, 16, EXTERNAL_LONG_DOUBLE};

/* That elements are written as these bytes, and that reading gives the row again. */
static void check_form(const struct basic_type *type, size_t count, const void *row, const char *wanted) {
    unsigned char external[64], back[64];
    size_t length = count * type->numbers * type->external;
    memset(external, 0x77, sizeof external);
    memset(back, 0x77, sizeof back);
    write_external(type, count, row, external);
    CHECK(memcmp(external, wanted, length) == 0 && external[length] == 0x77);
    read_external(type, count, external, back);
    CHECK(memcmp(back, row, count * type->size) == 0 && back[count * type->size] == 0x77);
}

static void check_forms(void) {
    check_form(&bytes, 3, "abc", "abc");
    check_form(&wide, 2, (int64_t[]){-2, 0x01020304}, "\xff\xff\xff\xfe\1\2\3\4");
    check_form(&unsigned_wide, 1, (uint64_t[]){0xfffffffe}, "\xff\xff\xff\xfe");
    check_form(&truth, 2, (bool[]){true, false}, "\0\0\0\1\0\0\0\0");
    check_form(&complex_number, 1, (float[]){1, -2}, "\x3f\x80\0\0\xc0\0\0\0");
    unsigned char other = 0;
    read_external(&truth, 1, (const unsigned char *)"\0\1\0\0", &other);
    CHECK(other == 1);
}

/* The value that 128 bits mean: sign, 15 bits of exponent, 112 of fraction. */
static long double value_of(const unsigned char *from) {
    int exponent = (from[0] & 0x7f) << 8 | from[1];
    long double value = exponent == 0 ? 0 : 1, unit = 1;
    for (int i = 2; i < 16; i++) {
        unit /= 256;
        value += from[i] * unit;
    }
    value = ldexpl(value, (exponent == 0 ? 1 : exponent) - 16383);
    return from[0] & 0x80 ? -value : value;
}

static void check_long_doubles(void) {
    unsigned seed = 1;
    for (int i = 0; i < 20000; i++) {
        unsigned char row[16] = {0}, external[16], back[16];
        for (int at = 0; at < 10; at++) row[at] = (unsigned char)((seed = seed * 1664525u + 1013904223u) >> 16);
        if (i % 8 == 0) row[8] = 0, row[9] &= 0x80;
        /* The leading bit is that of the exponent. */
        bool is_normal = row[8] != 0 || (row[9] & 0x7f) != 0;
        row[7] = (unsigned char)((row[7] & 0x7f) | (is_normal ? 0x80 : 0));
        if (row[8] == 0xff && (row[9] & 0x7f) == 0x7f) continue;
        long double number;
        memcpy(&number, row, 16);
        write_external(&long_double, 1, row, external);
        CHECK(value_of(external) == number);
        read_external(&long_double, 1, external, back);
        CHECK(memcmp(back, row, 16) == 0);
    }
}

/* What isn't a number, and infinities; fractions that are cut. */
static void check_special(void) {
    long double back;
    const unsigned char infinite[16] = {0xff, 0xff}, far[16] = {0x7f, 0xff, [15] = 1}, near[16] = {0x7f, 0xff, 0x80};
    const unsigned char cut[16] = {0x3f, 0xff, [9] = 1, [12] = 0xff};
    read_external(&long_double, 1, infinite, (unsigned char *)&back);
    CHECK(isinf(back) && back < 0);
    read_external(&long_double, 1, far, (unsigned char *)&back);
    CHECK(isnan(back));
    read_external(&long_double, 1, near, (unsigned char *)&back);
    CHECK(isnan(back));
    read_external(&long_double, 1, cut, (unsigned char *)&back);
    CHECK(back == 1);
}

int main(void) {
    check_forms();
    check_long_doubles();
    check_special();
    return unit_end();
}
