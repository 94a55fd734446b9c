/* Types by the numbers that they hold (MPI 3.1, 17.1.9): those of Fortran's kinds, and of sizes. */
#include "errors.h"
#include "internal.h"
#include "type_makers.h"

/* What Fortran's compilers have on this machine: numbers of so many decimal digits, whose exponents of ten are in this
 * range; an integer has digits alone. A real of 18 digits is a long double of C. */
struct kind {
    int digits, range;
    MPI_Datatype type;
};
enum { KINDS = 5 };
static const struct kind reals[KINDS] = {
    {6, 37, MPI_REAL4}, {15, 307, MPI_REAL8}, {18, 4931, MPI_LONG_DOUBLE}, {33, 4931, MPI_REAL16}};
static const struct kind complexes[KINDS] = {
    {6, 37, MPI_COMPLEX8}, {15, 307, MPI_COMPLEX16}, {18, 4931, MPI_C_LONG_DOUBLE_COMPLEX}, {33, 4931, MPI_COMPLEX32}};
static const struct kind integers[KINDS] = {
    {2, 0, MPI_INTEGER1}, {4, 0, MPI_INTEGER2}, {9, 0, MPI_INTEGER4}, {18, 0, MPI_INTEGER8}, {38, 0, MPI_INTEGER16}};

/* The least kind that holds such numbers, or NULL. A number that is MPI_UNDEFINED asks for nothing. */
static struct datatype *least_kind(const struct kind *kinds, int digits, int range) {
    for (const struct kind *it = kinds; it != kinds + KINDS && it->type != MPI_DATATYPE_NULL; it++)
        if (digits <= it->digits && range <= it->range) return datatype_of(it->type);
    return NULL;
}

/* The type of such numbers: it is predefined, and there is one of these arguments. */
static int make_kind(const char *call, int combiner, const struct kind *kinds, const int *arguments, int count,
                     MPI_Datatype *newtype) {
    struct maker maker;
    check_running(call);
    int class = check_result(MPI_COMM_WORLD, call, newtype, "newtype");
    if (class != MPI_SUCCESS) return class;
    int digits = arguments[0], range = count == 2 ? arguments[1] : 0;
    bool is_asked = digits != MPI_UNDEFINED || (count == 2 && range != MPI_UNDEFINED);
    bool is_known = (digits >= 0 || (count == 2 && digits == MPI_UNDEFINED)) && (range >= 0 || range == MPI_UNDEFINED);
    struct datatype *kind = is_asked && is_known ? least_kind(kinds, digits, range) : NULL;
    if (kind == NULL && count == 1) return raise_on(MPI_COMM_WORLD, call, MPI_ERR_ARG, "no integer has r = %d", digits);
    if (kind == NULL)
        return raise_on(MPI_COMM_WORLD, call, MPI_ERR_ARG, "no number has p = %d and r = %d", digits, range);
    MPI_Datatype found = find_predefined(combiner, arguments, count);
    if (found != MPI_DATATYPE_NULL) {
        *newtype = found;
        return MPI_SUCCESS;
    }
    maker_begin(&maker, call, combiner, (size_t)count, 0, 0);
    maker_note_all(&maker, arguments, count);
    maker_copy(&maker, kind);
    if (maker.type != NULL) maker.type->is_committed = maker.type->is_predefined = true;
    return maker_hand_out(&maker, newtype);
}

int MPI_Type_create_f90_real(int p, int r, MPI_Datatype *newtype) {
    NOTE_CALLER();
    return make_kind("MPI_Type_create_f90_real", MPI_COMBINER_F90_REAL, reals, (int[]){p, r}, 2, newtype);
}

int MPI_Type_create_f90_complex(int p, int r, MPI_Datatype *newtype) {
    NOTE_CALLER();
    return make_kind("MPI_Type_create_f90_complex", MPI_COMBINER_F90_COMPLEX, complexes, (int[]){p, r}, 2, newtype);
}

int MPI_Type_create_f90_integer(int r, MPI_Datatype *newtype) {
    NOTE_CALLER();
    return make_kind("MPI_Type_create_f90_integer", MPI_COMBINER_F90_INTEGER, integers, &r, 1, newtype);
}

int MPI_Type_match_size(int typeclass, int size, MPI_Datatype *datatype) {
    NOTE_CALLER();
    static const struct {
        int class;
        MPI_Datatype type;
    } known[] = {{MPI_TYPECLASS_REAL, MPI_FLOAT},
                 {MPI_TYPECLASS_REAL, MPI_DOUBLE},
                 {MPI_TYPECLASS_REAL, MPI_LONG_DOUBLE},
                 {MPI_TYPECLASS_INTEGER, MPI_SIGNED_CHAR},
                 {MPI_TYPECLASS_INTEGER, MPI_SHORT},
                 {MPI_TYPECLASS_INTEGER, MPI_INT},
                 {MPI_TYPECLASS_INTEGER, MPI_LONG},
                 {MPI_TYPECLASS_INTEGER, MPI_INTEGER16},
                 {MPI_TYPECLASS_COMPLEX, MPI_C_FLOAT_COMPLEX},
                 {MPI_TYPECLASS_COMPLEX, MPI_C_DOUBLE_COMPLEX},
                 {MPI_TYPECLASS_COMPLEX, MPI_C_LONG_DOUBLE_COMPLEX}};
    const char *call = "MPI_Type_match_size";
    check_running(call);
    int class = check_result(MPI_COMM_WORLD, call, datatype, "datatype");
    if (class != MPI_SUCCESS) return class;
    if (typeclass < MPI_TYPECLASS_REAL || typeclass > MPI_TYPECLASS_COMPLEX)
        return raise_on(MPI_COMM_WORLD, call, MPI_ERR_ARG, "typeclass is %d", typeclass);
    for (size_t i = 0; i < sizeof known / sizeof *known; i++) {
        if (known[i].class != typeclass || datatype_of(known[i].type)->layout.numbers.size != (size_t)size) continue;
        *datatype = known[i].type;
        return MPI_SUCCESS;
    }
    return raise_on(MPI_COMM_WORLD, call, MPI_ERR_ARG, "size is %d: the class has no such type", size);
}
