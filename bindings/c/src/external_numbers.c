/* Numbers in external32: see external_numbers.h. */
#include "external_numbers.h"

#include <float.h>
#include <stdint.h>
#include <string.h>

#if LDBL_MANT_DIG != 64 || __BYTE_ORDER__ != __ORDER_LITTLE_ENDIAN__
#error "numbers are those of x86: the low byte first, long doubles of 80 bits"
#endif

/* Turns the order of bytes round. */
static void turn(unsigned char *to, const unsigned char *from, size_t length) {
    for (size_t i = 0; i < length; i++) to[i] = from[length - 1 - i];
}

/* A long double has its leading bit written, and 128 bits haven't: sign and exponent are the same in both, the 63 bits
 * behind the leading one are the first ones of the other's fraction. */
static void write_long_double(const unsigned char *from, unsigned char *to) {
    uint64_t mantissa;
    memcpy(&mantissa, from, sizeof mantissa);
    mantissa <<= 1;
    to[0] = from[9];
    to[1] = from[8];
    turn(to + 2, (const unsigned char *)&mantissa, sizeof mantissa);
    memset(to + 10, 0, 6);
}

/* The leading bit is 0 where the exponent is: of 0 and of numbers below the least normal one. A NaN all of whose bits
 * are cut stays one. */
static void read_long_double(const unsigned char *from, unsigned char *to) {
    uint64_t mantissa;
    unsigned exponent = (from[0] & 0x7fu) << 8 | from[1];
    turn((unsigned char *)&mantissa, from + 2, sizeof mantissa);
    unsigned char cut = mantissa & 1;
    for (size_t i = 10; i < 16; i++) cut |= from[i];
    mantissa >>= 1;
    if (exponent == 0x7fff && mantissa == 0 && cut != 0) mantissa = (uint64_t)1 << 62;
    if (exponent != 0) mantissa |= (uint64_t)1 << 63;
    memcpy(to, &mantissa, sizeof mantissa);
    to[8] = from[1];
    to[9] = from[0];
    memset(to + 10, 0, 6);
}

static void write_number(const struct basic_type *type, const unsigned char *from, unsigned char *to) {
    size_t size = type->size / type->numbers;
    switch (type->form) {
    case EXTERNAL_LONG_DOUBLE:
        write_long_double(from, to);
        break;
    case EXTERNAL_BOOLEAN:
        memset(to, 0, type->external);
        for (size_t i = 0; i < size; i++) to[type->external - 1] |= from[i] != 0;
        break;
    default:
        turn(to, from, type->external);
    }
}

static void read_number(const struct basic_type *type, const unsigned char *from, unsigned char *to) {
    size_t size = type->size / type->numbers;
    bool is_negative = type->form == EXTERNAL_SIGNED && (from[0] & 0x80) != 0;
    switch (type->form) {
    case EXTERNAL_LONG_DOUBLE:
        read_long_double(from, to);
        break;
    case EXTERNAL_BOOLEAN:
        memset(to, 0, size);
        for (size_t i = 0; i < type->external; i++) to[0] |= from[i] != 0;
        break;
    default:
        memset(to, is_negative ? 0xff : 0, size);
        turn(to, from, type->external);
    }
}

void write_external(const struct basic_type *type, size_t count, const unsigned char *row, unsigned char *external) {
    size_t size = type->size / type->numbers;
    if (type->form == EXTERNAL_BYTES) memcpy(external, row, count * size);
    for (size_t i = 0; i < count * type->numbers && type->form != EXTERNAL_BYTES; i++)
        write_number(type, row + i * size, external + i * type->external);
}

void read_external(const struct basic_type *type, size_t count, const unsigned char *external, unsigned char *row) {
    size_t size = type->size / type->numbers;
    if (type->form == EXTERNAL_BYTES) memcpy(row, external, count * size);
    for (size_t i = 0; i < count * type->numbers && type->form != EXTERNAL_BYTES; i++)
        read_number(type, external + i * type->external, row + i * size);
}
