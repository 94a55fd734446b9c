/* The predefined types (MPI 3.1, 3.2.2, 4.1.7, 5.9.4, 13.5.2 and annex A). */
#include "types.h"

#include <complex.h>
#include <stdalign.h>
#include <wchar.h>

/* Numbers that C has no names for: integers and floats of 16 bytes, pairs of the latter. */
struct sixteen {
    alignas(16) unsigned char bytes[16];
};
struct two_sixteens {
    struct sixteen real, imaginary;
};
typedef float _Complex float_complex;
typedef double _Complex double_complex;
typedef long double _Complex long_double_complex;

/* What the engine carries an integer as: by its width and its sign. */
#define SIGNED_OF(c_type) (ENGINE_INT8 + (sizeof(c_type) > 1) + (sizeof(c_type) > 2) + (sizeof(c_type) > 4))
#define IS_SIGNED(c_type) ((c_type)-1 < (c_type)1)
#define CARRIED_OF(c_type) (IS_SIGNED(c_type) ? SIGNED_OF(c_type) : SIGNED_OF(c_type) + ENGINE_UINT8 - ENGINE_INT8)
#define FLOAT_OF(c_type) (sizeof(c_type) == 4 ? ENGINE_FLOAT32 : ENGINE_FLOAT64)
#define SIGN_OF(c_type) (IS_SIGNED(c_type) ? EXTERNAL_SIGNED : EXTERNAL_UNSIGNED)

/* The basic types, in the order of their handles in mpi.h: name, C type, family, what the engine carries an item as and
 * in elements of how many bytes, numbers of an item, bytes of one in external32, and how it is written there. What C
 * has no arithmetic for goes as its bytes, and so does a long double. A CHAR counts as an integer in reductions: 5.9.2
 * doesn't say so, but programs expect it. */
#define INTEGER(name, c_type, family) INTEGER_OF(name, c_type, family, sizeof(c_type))
#define INTEGER_OF(name, c_type, family, external)                                                                     \
    BASIC(name, c_type, family, CARRIED_OF(c_type), sizeof(c_type), 1, external, SIGN_OF(c_type))
#define REAL(name, c_type)                                                                                             \
    BASIC(name, c_type, FLOATING, FLOAT_OF(c_type), sizeof(c_type), 1, sizeof(c_type), EXTERNAL_FLOAT)
#define COMPLEX_OF(name, c_type, part)                                                                                 \
    BASIC(name, c_type, COMPLEX, FLOAT_OF(part), sizeof(part), 2, sizeof(part), EXTERNAL_FLOAT)
#define TRUTH(name) BASIC(name, _Bool, LOGICAL, ENGINE_UINT8, 1, 1, 1, EXTERNAL_BOOLEAN)
#define LONG_DOUBLES(name, c_type, family, numbers)                                                                    \
    BASIC(name, c_type, family, ENGINE_BYTE, 1, numbers, 16, EXTERNAL_LONG_DOUBLE)
#define SIXTEENS(name, c_type, numbers) BASIC(name, c_type, OTHER, ENGINE_BYTE, 1, numbers, 16, EXTERNAL_FLOAT)
#define BASIC_TYPES                                                                                                    \
    BASIC(BYTE, unsigned char, BYTE, ENGINE_BYTE, 1, 1, 1, EXTERNAL_BYTES)                                             \
    INTEGER(CHAR, char, INTEGER)                                                                                       \
    INTEGER(SIGNED_CHAR, signed char, INTEGER)                                                                         \
    INTEGER(UNSIGNED_CHAR, unsigned char, INTEGER)                                                                     \
    BASIC(WCHAR, wchar_t, CHARACTER, CARRIED_OF(wchar_t), sizeof(wchar_t), 1, 2, EXTERNAL_UNSIGNED)                    \
    INTEGER(SHORT, short, INTEGER)                                                                                     \
    INTEGER(UNSIGNED_SHORT, unsigned short, INTEGER)                                                                   \
    INTEGER(INT, int, INTEGER)                                                                                         \
    INTEGER(UNSIGNED, unsigned, INTEGER)                                                                               \
    INTEGER_OF(LONG, long, INTEGER, 4)                                                                                 \
    INTEGER_OF(UNSIGNED_LONG, unsigned long, INTEGER, 4)                                                               \
    INTEGER(LONG_LONG_INT, long long, INTEGER)                                                                         \
    INTEGER(UNSIGNED_LONG_LONG, unsigned long long, INTEGER)                                                           \
    INTEGER(INT8_T, int8_t, INTEGER)                                                                                   \
    INTEGER(INT16_T, int16_t, INTEGER)                                                                                 \
    INTEGER(INT32_T, int32_t, INTEGER)                                                                                 \
    INTEGER(INT64_T, int64_t, INTEGER)                                                                                 \
    INTEGER(UINT8_T, uint8_t, INTEGER)                                                                                 \
    INTEGER(UINT16_T, uint16_t, INTEGER)                                                                               \
    INTEGER(UINT32_T, uint32_t, INTEGER)                                                                               \
    INTEGER(UINT64_T, uint64_t, INTEGER)                                                                               \
    REAL(FLOAT, float)                                                                                                 \
    REAL(DOUBLE, double)                                                                                               \
    LONG_DOUBLES(LONG_DOUBLE, long double, FLOATING, 1)                                                                \
    TRUTH(C_BOOL)                                                                                                      \
    INTEGER(AINT, MPI_Aint, ADDRESS)                                                                                   \
    INTEGER(COUNT, MPI_Count, ADDRESS)                                                                                 \
    INTEGER(OFFSET, MPI_Offset, ADDRESS)                                                                               \
    BASIC(PACKED, unsigned char, OTHER, ENGINE_BYTE, 1, 1, 1, EXTERNAL_BYTES)                                          \
    COMPLEX_OF(C_COMPLEX, float_complex, float)                                                                        \
    COMPLEX_OF(C_DOUBLE_COMPLEX, double_complex, double)                                                               \
    LONG_DOUBLES(C_LONG_DOUBLE_COMPLEX, long_double_complex, COMPLEX, 2)                                               \
    TRUTH(CXX_BOOL)                                                                                                    \
    COMPLEX_OF(CXX_FLOAT_COMPLEX, float_complex, float)                                                                \
    COMPLEX_OF(CXX_DOUBLE_COMPLEX, double_complex, double)                                                             \
    LONG_DOUBLES(CXX_LONG_DOUBLE_COMPLEX, long_double_complex, COMPLEX, 2)                                             \
    INTEGER(INTEGER, int, INTEGER)                                                                                     \
    INTEGER(LOGICAL, int, LOGICAL)                                                                                     \
    INTEGER(CHARACTER, char, CHARACTER)                                                                                \
    REAL(REAL, float)                                                                                                  \
    REAL(DOUBLE_PRECISION, double)                                                                                     \
    COMPLEX_OF(COMPLEX, float_complex, float)                                                                          \
    COMPLEX_OF(DOUBLE_COMPLEX, double_complex, double)                                                                 \
    INTEGER(INTEGER1, int8_t, INTEGER)                                                                                 \
    INTEGER(INTEGER2, int16_t, INTEGER)                                                                                \
    INTEGER(INTEGER4, int32_t, INTEGER)                                                                                \
    INTEGER(INTEGER8, int64_t, INTEGER)                                                                                \
    SIXTEENS(INTEGER16, struct sixteen, 1)                                                                             \
    REAL(REAL4, float)                                                                                                 \
    REAL(REAL8, double)                                                                                                \
    SIXTEENS(REAL16, struct sixteen, 1)                                                                                \
    COMPLEX_OF(COMPLEX8, float_complex, float)                                                                         \
    COMPLEX_OF(COMPLEX16, double_complex, double)                                                                      \
    SIXTEENS(COMPLEX32, struct two_sixteens, 2)

/* The place of each. */
#define BASIC(name, ...) PLACE_##name,
enum { BASIC_TYPES BASIC_COUNT };
#undef BASIC

_Static_assert(BASIC_COUNT + 2 + PAIR_2DOUBLE_PRECISION == NAMED_TYPES, "the basic types, two markers, the pairs");

#define BASIC(name, c_type, family, basic, unit, of_numbers, of_external, of_form)                                     \
    {.size = sizeof(c_type), .numbers = (of_numbers), .external = (of_external), .form = (of_form)},
static const struct basic_type basic_types[] = {BASIC_TYPES};
#undef BASIC

/* clang-format off */
/* What all have, and what those have that have data. The runs and the parts of the signature are static. */
#define NAMED(of_name, of_basic, of_unit, of_family)                                                                   \
    .basic = (of_basic), .unit = (of_unit), .family = FAMILY_##of_family, .of = "MPI_" #of_name,                       \
    .name = "MPI_" #of_name, .is_committed = true, .is_predefined = true, .uses = 1
#define LAYOUT(of_size, of_count, of_extent, of_upper, of_alignment, of_kind, of_runs)                                 \
    .layout = {.numbers = {.size = (of_size), .elements = (of_count), .has_data = true, .extent = (of_extent),         \
                           .true_upper = (of_upper), .alignment = (of_alignment), .kinds = 1, .kind = (of_kind)},      \
               .runs = of_runs}
#define RUNS(count, high, ...) &(struct runs){1, count, 0, high, count, (struct run[]){__VA_ARGS__}}
#define ROW(at, length) {at, length, 1, 0, 0}
#define SIGNATURE(size, elements, external, count, ...)                                                                \
    .signature = &(struct signature){1, size, elements, external, count, (struct signature_part[]){__VA_ARGS__}}
#define PART(name) {1, &basic_types[PLACE_##name], NULL}

#define BASIC(name, c_type, family, basic, unit, numbers, external, form)                                              \
    {NAMED(name, basic, unit, family),                                                                                 \
     LAYOUT(sizeof(c_type), 1, sizeof(c_type), sizeof(c_type), alignof(c_type), basic,                                 \
            RUNS(1, sizeof(c_type), ROW(0, sizeof(c_type)))),                                                          \
     SIGNATURE(sizeof(c_type), 1, (numbers) * (external), 1, PART(name))},

/* A marker of a bound has no data (4.1.7). */
#define MARKER(name, is_lower, is_upper)                                                                               \
    {NAMED(name, ENGINE_BYTE, 1, OTHER),                                                                               \
     .layout.numbers = {.alignment = 1, .has_lower = (is_lower), .has_upper = (is_upper)}}

/* A pair is the struct of its value and its index. Its data are one row where there is no gap between the two. */
#define STRUCT_OF(c_value, c_index) struct { c_value value; c_index index; }
#define AT(c_value, c_index) offsetof(STRUCT_OF(c_value, c_index), index)
#define HAS_GAP(c_value, c_index) (AT(c_value, c_index) != sizeof(c_value))
#define BOTH(c_value, c_index) (sizeof(c_value) + sizeof(c_index))
#define PAIR(name, value, c_value, index, c_index, basic, unit, external)                                              \
    {NAMED(name, basic, unit, PAIR), .pair = PAIR_##name,                                                              \
     LAYOUT(BOTH(c_value, c_index), 2, sizeof(STRUCT_OF(c_value, c_index)), AT(c_value, c_index) + sizeof(c_index),    \
            alignof(STRUCT_OF(c_value, c_index)), basic,                                                               \
            RUNS(HAS_GAP(c_value, c_index) ? 2 : 1, AT(c_value, c_index) + sizeof(c_index),                            \
                 ROW(0, HAS_GAP(c_value, c_index) ? sizeof(c_value) : BOTH(c_value, c_index)),                         \
                 ROW(AT(c_value, c_index), sizeof(c_index)))),                                                         \
     SIGNATURE(BOTH(c_value, c_index), 2, external, 2, PART(value), PART(index))}

struct datatype named_types[] = {
    BASIC_TYPES /* each has its comma */
    MARKER(LB, true, false),
    MARKER(UB, false, true),
    PAIR(FLOAT_INT, FLOAT, float, INT, int, ENGINE_BYTE, 1, 8),
    PAIR(DOUBLE_INT, DOUBLE, double, INT, int, ENGINE_BYTE, 1, 12),
    PAIR(LONG_INT, LONG, long, INT, int, ENGINE_BYTE, 1, 8),
    PAIR(2INT, INT, int, INT, int, ENGINE_INT32, 4, 8),
    PAIR(SHORT_INT, SHORT, short, INT, int, ENGINE_BYTE, 1, 6),
    PAIR(LONG_DOUBLE_INT, LONG_DOUBLE, long double, INT, int, ENGINE_BYTE, 1, 20),
    PAIR(2INTEGER, INTEGER, int, INTEGER, int, ENGINE_INT32, 4, 8),
    PAIR(2REAL, REAL, float, REAL, float, ENGINE_FLOAT32, 4, 8),
    PAIR(2DOUBLE_PRECISION, DOUBLE_PRECISION, double, DOUBLE_PRECISION, double, ENGINE_FLOAT64, 8, 16),
};
/* clang-format on */
