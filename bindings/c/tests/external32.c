/* Packing in external32 (MPI 3.1, 4.3 and 13.5.2): sizes, bytes, and back. */
#include "test.h"

#include <math.h>
#include <stdint.h>

enum { ROOM = 2000 };

/* The sizes of 13.5.2 (WCHAR and LONG aren't what they are in memory). */
static const struct {
    MPI_Datatype type;
    int size;
} known[] = {{MPI_PACKED, 1},
             {MPI_BYTE, 1},
             {MPI_CHAR, 1},
             {MPI_UNSIGNED_CHAR, 1},
             {MPI_SIGNED_CHAR, 1},
             {MPI_WCHAR, 2},
             {MPI_SHORT, 2},
             {MPI_UNSIGNED_SHORT, 2},
             {MPI_INT, 4},
             {MPI_UNSIGNED, 4},
             {MPI_LONG, 4},
             {MPI_UNSIGNED_LONG, 4},
             {MPI_LONG_LONG_INT, 8},
             {MPI_UNSIGNED_LONG_LONG, 8},
             {MPI_FLOAT, 4},
             {MPI_DOUBLE, 8},
             {MPI_LONG_DOUBLE, 16},
             {MPI_C_BOOL, 1},
             {MPI_INT8_T, 1},
             {MPI_INT16_T, 2},
             {MPI_INT32_T, 4},
             {MPI_INT64_T, 8},
             {MPI_UINT8_T, 1},
             {MPI_UINT16_T, 2},
             {MPI_UINT32_T, 4},
             {MPI_UINT64_T, 8},
             {MPI_AINT, 8},
             {MPI_COUNT, 8},
             {MPI_OFFSET, 8},
             {MPI_C_COMPLEX, 8},
             {MPI_C_DOUBLE_COMPLEX, 16},
             {MPI_C_LONG_DOUBLE_COMPLEX, 32},
             {MPI_CHARACTER, 1},
             {MPI_LOGICAL, 4},
             {MPI_INTEGER, 4},
             {MPI_REAL, 4},
             {MPI_DOUBLE_PRECISION, 8},
             {MPI_COMPLEX, 8},
             {MPI_DOUBLE_COMPLEX, 16},
             {MPI_INTEGER1, 1},
             {MPI_INTEGER2, 2},
             {MPI_INTEGER4, 4},
             {MPI_INTEGER8, 8},
             {MPI_INTEGER16, 16},
             {MPI_REAL4, 4},
             {MPI_REAL8, 8},
             {MPI_REAL16, 16},
             {MPI_COMPLEX8, 8},
             {MPI_COMPLEX16, 16},
             {MPI_COMPLEX32, 32},
             {MPI_CXX_BOOL, 1},
             {MPI_FLOAT_INT, 8},
             {MPI_LONG_INT, 8},
             {MPI_SHORT_INT, 6},
             {MPI_LONG_DOUBLE_INT, 20}};

static void check_sizes(void) {
    MPI_Datatype row;
    for (size_t i = 0; i < sizeof known / sizeof *known; i++) {
        MPI_Aint size = -1;
        MPI_Pack_external_size("external32", 3, known[i].type, &size);
        CHECK(size == 3 * known[i].size);
        MPI_Type_vector(5, 2, 3, known[i].type, &row);
        MPI_Type_commit(&row);
        MPI_Pack_external_size("external32", 7, row, &size);
        CHECK(size == 70 * known[i].size);
        MPI_Type_free(&row);
    }
}

/* That an element is written as these bytes, and read from them as it was. */
static void check_bytes(MPI_Datatype type, const void *number, size_t size, const char *bytes, size_t length) {
    unsigned char packed[64], back[64];
    MPI_Aint position = 0;
    memset(packed, 0x11, sizeof packed);
    MPI_Pack_external("external32", number, 1, type, packed, (MPI_Aint)length, &position);
    CHECK(position == (MPI_Aint)length && memcmp(packed, bytes, length) == 0 && packed[length] == 0x11);
    memset(back, 0x22, sizeof back);
    position = 0;
    MPI_Unpack_external("external32", packed, (MPI_Aint)length, &position, back, 1, type);
    CHECK(position == (MPI_Aint)length && memcmp(back, number, size) == 0 && back[size] == 0x22);
}
#define CHECK_BYTES(type, c_type, number, bytes)                                                                       \
    check_bytes(type, &(c_type){number}, sizeof(c_type), bytes, sizeof(bytes) - 1)

static void check_numbers(void) {
    CHECK_BYTES(MPI_BYTE, unsigned char, 0xfe, "\xfe");
    CHECK_BYTES(MPI_SHORT, short, -2, "\xff\xfe");
    CHECK_BYTES(MPI_INT, int, 0x01020304, "\1\2\3\4");
    CHECK_BYTES(MPI_LONG, long, 0x01020304, "\1\2\3\4");
    CHECK_BYTES(MPI_LONG, long, -3, "\xff\xff\xff\xfd");
    CHECK_BYTES(MPI_UNSIGNED_LONG, unsigned long, 0xfffffffd, "\xff\xff\xff\xfd");
    CHECK_BYTES(MPI_LONG_LONG_INT, long long, -3, "\xff\xff\xff\xff\xff\xff\xff\xfd");
    CHECK_BYTES(MPI_WCHAR, int, 0xe4f6, "\xe4\xf6");
    CHECK_BYTES(MPI_C_BOOL, bool, true, "\1");
    CHECK_BYTES(MPI_C_BOOL, bool, false, "\0");
    CHECK_BYTES(MPI_FLOAT, float, -1.5f, "\xbf\xc0\0\0");
    CHECK_BYTES(MPI_DOUBLE, double, 1.0, "\x3f\xf0\0\0\0\0\0\0");
    CHECK_BYTES(MPI_REAL, float, 2.0f, "\x40\0\0\0");
}

/* A long double: as 128 bits of IEEE 754, and cut to 80 when it is read. */
static void check_long_double(long double number, const char *bytes) {
    unsigned char packed[16];
    long double back = 1;
    MPI_Aint position = 0;
    MPI_Pack_external("external32", &number, 1, MPI_LONG_DOUBLE, packed, 16, &position);
    CHECK(position == 16 && memcmp(packed, bytes, 16) == 0);
    position = 0;
    MPI_Unpack_external("external32", packed, 16, &position, &back, 1, MPI_LONG_DOUBLE);
    CHECK(memcmp(&back, &number, 10) == 0);
}
static void check_long_doubles(void) {
    check_long_double(1.0L, "\x3f\xff\0\0\0\0\0\0\0\0\0\0\0\0\0");
    check_long_double(-2.5L, "\xc0\0\x40\0\0\0\0\0\0\0\0\0\0\0\0");
    check_long_double(0.0L, "\0\0\0\0\0\0\0\0\0\0\0\0\0\0\0");
    check_long_double(-0.0L, "\x80\0\0\0\0\0\0\0\0\0\0\0\0\0\0");
    check_long_double(INFINITY, "\x7f\xff\0\0\0\0\0\0\0\0\0\0\0\0\0");
    check_long_double(0x1.fffffffffffffffep0L, "\x3f\xff\xff\xff\xff\xff\xff\xff\xff\xfe\0\0\0\0\0");
    check_long_double(0x1p-16445L, "\0\0\0\0\0\0\0\0\0\2\0\0\0\0\0");
    long double none = NAN, back = 0;
    unsigned char packed[16];
    MPI_Aint position = 0;
    MPI_Pack_external("external32", &none, 1, MPI_LONG_DOUBLE, packed, 16, &position);
    position = 0;
    MPI_Unpack_external("external32", packed, 16, &position, &back, 1, MPI_LONG_DOUBLE);
    CHECK(isnan(back));
    /* A NaN that has its one bit far behind stays one. */
    memcpy(packed, "\x7f\xff\0\0\0\0\0\0\0\0\0\0\0\0\0\1", 16);
    position = 0;
    MPI_Unpack_external("external32", packed, 16, &position, &back, 1, MPI_LONG_DOUBLE);
    CHECK(isnan(back));
}

/* Both parts of a complex number, and of a pair. */
static void check_pairs(void) {
    check_bytes(MPI_C_DOUBLE_COMPLEX, (double[]){1, -2}, 16, "\x3f\xf0\0\0\0\0\0\0\xc0\0\0\0\0\0\0\0", 16);
    struct {
        long value;
        int index;
    } pair = {-2, 5};
    check_bytes(MPI_LONG_INT, &pair, 12, "\xff\xff\xff\xfe\0\0\0\5", 8);
    struct {
        short value;
        int index;
    } small, back = {0, 0};
    unsigned char packed[6];
    MPI_Aint position = 0;
    small.value = -2;
    small.index = 5;
    MPI_Pack_external("external32", &small, 1, MPI_SHORT_INT, packed, 6, &position);
    CHECK(memcmp(packed, "\xff\xfe\0\0\0\5", 6) == 0);
    position = 0;
    MPI_Unpack_external("external32", packed, 6, &position, &back, 1, MPI_SHORT_INT);
    CHECK(back.value == -2 && back.index == 5);
}

/* Items of several types, one behind the other, in two calls. */
static void check_items(void) {
    struct item {
        char letter;
        long numbers[2];
        float weight;
    } from[3], back[3];
    MPI_Datatype item, sized;
    unsigned char packed[ROOM];
    MPI_Aint position = 4, size = -1;
    MPI_Type_create_struct(3, (int[]){1, 2, 1}, (MPI_Aint[]){0, 8, 24}, (MPI_Datatype[]){MPI_CHAR, MPI_LONG, MPI_FLOAT},
                           &item);
    MPI_Type_create_resized(item, 0, sizeof(struct item), &sized);
    MPI_Type_commit(&sized);
    for (int i = 0; i < 3; i++)
        from[i] = (struct item){.letter = (char)('a' + i), .numbers = {-i, 70000 * i}, .weight = 0.5f * (float)i};
    MPI_Pack_external_size("external32", 3, sized, &size);
    CHECK(size == 3 * 13);
    MPI_Pack_external("external32", from, 2, sized, packed, ROOM, &position);
    MPI_Pack_external("external32", from + 2, 1, sized, packed, ROOM, &position);
    CHECK(position == 4 + size && memcmp(packed + 17, "b\xff\xff\xff\xff\0\1\x11\x70\x3f\0\0\0", 13) == 0);
    memset(back, 0, sizeof back);
    position = 4;
    MPI_Unpack_external("external32", packed, ROOM, &position, back, 3, sized);
    CHECK(position == 4 + size);
    for (int i = 0; i < 3; i++)
        CHECK(back[i].letter == from[i].letter && back[i].numbers[0] == -i && back[i].numbers[1] == 70000 * i &&
              back[i].weight == from[i].weight);
    MPI_Type_free(&item);
    MPI_Type_free(&sized);
}

int main(int argc, char **argv) {
    test_begin(&argc, &argv);
    check_sizes();
    check_numbers();
    check_long_doubles();
    check_pairs();
    check_items();
    return test_end();
}
