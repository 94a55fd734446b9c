/* The predefined types beyond the integers and floats of C (MPI 3.1, 3.2.2, 5.9.4, 17.1.9, annex A): sizes, bounds,
 * names, what their data are; and types by sizes and digits. */
#include "test.h"

#include <stddef.h>
#include <stdint.h>

typedef float _Complex float_complex;
typedef double _Complex double_complex;
typedef long double _Complex long_double_complex;
#define STRUCT_OF(c_value, c_index)                                                                                    \
    struct {                                                                                                           \
        c_value value;                                                                                                 \
        c_index index;                                                                                                 \
    }
#define PAIR(of_name, c_value, c_index)                                                                                \
    {                                                                                                                  \
        MPI_##of_name, "MPI_" #of_name, sizeof(c_value) + sizeof(c_index), sizeof(STRUCT_OF(c_value, c_index)),        \
            offsetof(STRUCT_OF(c_value, c_index), index), sizeof(c_index)                                              \
    }
#define ONE(of_name, c_type)                                                                                           \
    { MPI_##of_name, "MPI_" #of_name, sizeof(c_type), sizeof(c_type), 0, 0 }

static const struct known {
    MPI_Datatype type;
    const char *name;
    size_t size, extent, index_at, index_size; /* where a pair's index is */
} known[] = {
    PAIR(FLOAT_INT, float, int),
    PAIR(DOUBLE_INT, double, int),
    PAIR(LONG_INT, long, int),
    PAIR(2INT, int, int),
    PAIR(SHORT_INT, short, int),
    PAIR(LONG_DOUBLE_INT, long double, int),
    PAIR(2INTEGER, int, int),
    PAIR(2REAL, float, float),
    PAIR(2DOUBLE_PRECISION, double, double),
    ONE(C_COMPLEX, float_complex),
    ONE(C_DOUBLE_COMPLEX, double_complex),
    ONE(C_LONG_DOUBLE_COMPLEX, long_double_complex),
    ONE(CXX_BOOL, bool),
    ONE(CXX_FLOAT_COMPLEX, float_complex),
    ONE(CXX_DOUBLE_COMPLEX, double_complex),
    ONE(CXX_LONG_DOUBLE_COMPLEX, long_double_complex),
    ONE(PACKED, char),
    ONE(INTEGER, int),
    ONE(LOGICAL, int),
    ONE(CHARACTER, char),
    ONE(REAL, float),
    ONE(DOUBLE_PRECISION, double),
    ONE(COMPLEX, float_complex),
    ONE(DOUBLE_COMPLEX, double_complex),
    ONE(INTEGER1, int8_t),
    ONE(INTEGER2, int16_t),
    ONE(INTEGER4, int32_t),
    ONE(INTEGER8, int64_t),
    ONE(REAL4, float),
    ONE(REAL8, double),
    ONE(COMPLEX8, float_complex),
    ONE(COMPLEX16, double_complex),
};
enum { KNOWN = sizeof known / sizeof *known };

static void check_told(const struct known *it) {
    char name[MPI_MAX_OBJECT_NAME] = "";
    int length = -1, size = -1, counts[3] = {-1, -1, -1}, combiner = -1;
    MPI_Aint lower = -1, extent = -1;
    MPI_Type_get_name(it->type, name, &length);
    CHECK(strcmp(name, it->name) == 0 && length == (int)strlen(it->name));
    MPI_Type_size(it->type, &size);
    MPI_Type_get_extent(it->type, &lower, &extent);
    CHECK(size == (int)it->size && lower == 0 && extent == (MPI_Aint)it->extent);
    MPI_Type_get_envelope(it->type, &counts[0], &counts[1], &counts[2], &combiner);
    CHECK(counts[0] == 0 && counts[1] == 0 && counts[2] == 0 && combiner == MPI_COMBINER_NAMED);
}

/* Three items go to the next rank; what stands between a pair's parts doesn't. */
static void check_sent(const struct known *it) {
    unsigned char from[96], into[96], wanted[96];
    int next = (test_rank + 1) % test_size, before = (test_rank + test_size - 1) % test_size;
    fill(from, 3 * it->extent, (unsigned)it->size);
    if (it->type == MPI_CXX_BOOL || it->type == MPI_LOGICAL) memset(from, 1, 3 * it->extent);
    memset(into, 0xcc, sizeof into);
    memcpy(wanted, into, sizeof into);
    for (size_t at = 0; at < 3 * it->extent; at += it->extent) {
        memcpy(wanted + at, from + at, it->size - it->index_size);
        memcpy(wanted + at + it->index_at, from + at + it->index_at, it->index_size);
    }
    MPI_Sendrecv(from, 3, it->type, next, 1, into, 3, it->type, before, 1, MPI_COMM_WORLD, MPI_STATUS_IGNORE);
    CHECK(memcmp(into, wanted, sizeof into) == 0);
}

/* Of Fortran's numbers by their digits: each type is one, predefined, and told apart by how it was made. */
static void check_digits(void) {
    MPI_Datatype real, again, other, whole, pair;
    int size = -1, counts[3] = {-1, -1, -1}, combiner = -1, numbers[2] = {0};
    MPI_Type_create_f90_real(6, 30, &real);
    MPI_Type_create_f90_real(6, 30, &again);
    MPI_Type_create_f90_real(6, MPI_UNDEFINED, &other);
    CHECK(real == again && real != other);
    MPI_Type_size(real, &size);
    CHECK(size == 4);
    MPI_Type_get_envelope(real, &counts[0], &counts[1], &counts[2], &combiner);
    CHECK(counts[0] == 2 && counts[1] == 0 && counts[2] == 0 && combiner == MPI_COMBINER_F90_REAL);
    MPI_Type_get_contents(real, 2, 0, 0, numbers, NULL, NULL);
    CHECK(numbers[0] == 6 && numbers[1] == 30);
    MPI_Type_contiguous(2, real, &other);
    MPI_Type_get_contents(other, 1, 0, 1, numbers, NULL, &again);
    CHECK(again == real);
    MPI_Type_free(&other);
    MPI_Type_create_f90_real(MPI_UNDEFINED, 100, &other);
    MPI_Type_size(other, &size);
    CHECK(size == 8);
    MPI_Type_create_f90_integer(9, &whole);
    MPI_Type_size(whole, &size);
    CHECK(size == 4);
    MPI_Type_get_envelope(whole, &counts[0], &counts[1], &counts[2], &combiner);
    CHECK(counts[0] == 1 && combiner == MPI_COMBINER_F90_INTEGER);
    MPI_Type_create_f90_integer(10, &whole);
    MPI_Type_size(whole, &size);
    CHECK(size == 8);
    MPI_Type_create_f90_complex(10, 30, &pair);
    MPI_Type_size(pair, &size);
    MPI_Type_get_envelope(pair, &counts[0], &counts[1], &counts[2], &combiner);
    CHECK(size == 16 && combiner == MPI_COMBINER_F90_COMPLEX);
    /* Such a type is what reductions are defined on. */
    float own = 1.5f, all = 0;
    MPI_Allreduce(&own, &all, 1, real, MPI_SUM, MPI_COMM_WORLD);
    CHECK(all == 1.5f * (float)test_size);
}

static void check_sizes(void) {
    static const struct {
        int class, sizes[5];
    } classes[] = {
        {MPI_TYPECLASS_INTEGER, {1, 2, 4, 8, 0}}, {MPI_TYPECLASS_REAL, {4, 8, 0}}, {MPI_TYPECLASS_COMPLEX, {8, 16, 0}}};
    for (int i = 0; i < 3; i++) {
        for (const int *size = classes[i].sizes; *size != 0; size++) {
            MPI_Datatype found = MPI_DATATYPE_NULL;
            int told = -1;
            MPI_Type_match_size(classes[i].class, *size, &found);
            MPI_Type_size(found, &told);
            CHECK(told == *size);
        }
    }
    MPI_Datatype found = MPI_DATATYPE_NULL;
    return_errors();
    CHECK(MPI_Type_match_size(MPI_TYPECLASS_REAL, 3, &found) != MPI_SUCCESS);
    CHECK(MPI_Type_match_size(99, 4, &found) != MPI_SUCCESS);
    CHECK(found == MPI_DATATYPE_NULL);
    MPI_Comm_set_errhandler(MPI_COMM_WORLD, MPI_ERRORS_ARE_FATAL);
}

/* Handles as numbers of Fortran (17.2.4). */
static void check_numbers(void) {
    MPI_Datatype made;
    CHECK(MPI_Type_f2c(MPI_Type_c2f(MPI_DOUBLE)) == MPI_DOUBLE);
    CHECK(MPI_Type_f2c(MPI_Type_c2f(MPI_2INT)) == MPI_2INT);
    CHECK(MPI_Type_f2c(MPI_Type_c2f(MPI_DATATYPE_NULL)) == MPI_DATATYPE_NULL);
    for (int i = 0; i < 3; i++) {
        MPI_Type_contiguous(3, MPI_INT, &made);
        CHECK(MPI_Type_f2c(MPI_Type_c2f(made)) == made);
        MPI_Type_free(&made);
    }
}

int main(int argc, char **argv) {
    test_begin(&argc, &argv);
    check_numbers();
    for (int i = 0; i < KNOWN; i++) check_told(&known[i]);
    for (int i = 0; i < KNOWN; i++) check_sent(&known[i]);
    check_digits();
    check_sizes();
    return test_end();
}
