/* Operations of reductions, those of the program among them: see own_operations.h. */
#include "own_operations.h"

#include "engine_plans.h"
#include "errors.h"
#include "folds.h"
#include "internal.h"
#include "operations.h"
#include "pair_folds.h"
#include "table.h"

#include <stdlib.h>

#define PREDEFINED(of_number)                                                                                          \
    [ENGINE_##of_number] = {.number = ENGINE_##of_number, .commutes = true, .uses = 1, .name = "MPI_" #of_number}

/* The predefined operations, in the order of their handles in mpi.h; place 0 has none. */
static struct operation predefined[] = {
    PREDEFINED(MAX),
    PREDEFINED(MIN),
    PREDEFINED(SUM),
    PREDEFINED(PROD),
    PREDEFINED(LAND),
    PREDEFINED(LOR),
    PREDEFINED(LXOR),
    PREDEFINED(BAND),
    PREDEFINED(BOR),
    PREDEFINED(BXOR),
    [OPERATION_MINLOC] = {.number = OPERATION_MINLOC, .commutes = true, .uses = 1, .name = "MPI_MINLOC"},
    [OPERATION_MAXLOC] = {.number = OPERATION_MAXLOC, .commutes = true, .uses = 1, .name = "MPI_MAXLOC"},
    [OPERATION_REPLACE] = {.number = OPERATION_REPLACE, .uses = 1, .name = "MPI_REPLACE"},
    [OPERATION_NO_OP] = {.number = OPERATION_NO_OP, .uses = 1, .name = "MPI_NO_OP"},
};
enum { PREDEFINED_COUNT = sizeof predefined / sizeof *predefined };

/* All operations. The predefined ones have the first places, from when the first other one is made. */
static struct table operations = TABLE_OF(KIND_OPERATION);

struct operation *operation_at(MPI_Op op) {
    int64_t place = (intptr_t)op - HANDLE(KIND_OPERATION, 0);
    if (place >= ENGINE_MAX && place < PREDEFINED_COUNT) return &predefined[place];
    return table_find(&operations, (intptr_t)op);
}

static bool is_predefined(const struct operation *operation) { return operation->function == NULL; }

bool is_for_plans(MPI_Op op, MPI_Datatype datatype) {
    const struct operation *own = operation_at(op);
    const struct datatype *type = datatype_of(datatype);
    if (own == NULL) return false;
    if (!is_predefined(own) || own->number > ENGINE_BXOR) return true;
    return type != NULL && type->family == FAMILY_COMPLEX;
}

void release_operation(struct operation *operation) {
    if (operation != NULL && --operation->uses == 0 && !is_predefined(operation)) free(operation);
}

void close_operations(void) {
    for (int place = PREDEFINED_COUNT; place < operations.count; place++) free(operations.places[place].object);
    table_free(&operations);
}

/* ---- checks ---- */

int check_operation(MPI_Comm comm, const char *call, MPI_Op op, const struct datatype *type, struct operation **found) {
    *found = operation_at(op);
    if (*found == NULL) return raise_on(comm, call, MPI_ERR_OP, "no such operation");
    if (!is_predefined(*found)) return MPI_SUCCESS;
    if ((*found)->number >= OPERATION_REPLACE)
        return raise_on(comm, call, MPI_ERR_OP, "%s is for windows alone", (*found)->name);
    if (!type->is_predefined)
        return raise_on(comm, call, MPI_ERR_OP, "%s isn't defined on a derived type", (*found)->name);
    bool is_pairs = (*found)->number > ENGINE_BXOR;
    if (is_pairs ? type->pair == PAIR_NONE : !is_defined_on((enum engine_operation)(*found)->number, type->family))
        return raise_on(comm, call, MPI_ERR_OP, "%s isn't defined on %s", (*found)->name, type->name);
    return MPI_SUCCESS;
}

/* ---- folds ---- */

/* Whether C folds the items itself, and not the engine's definitions. */
static bool is_folded_here(const struct operation *operation, const struct datatype *type) {
    if (!is_predefined(operation) || operation->number > ENGINE_BXOR) return true;
    if (type->family == FAMILY_COMPLEX && operation->number == ENGINE_PROD) return true;
    return type->basic == ENGINE_BYTE && (type->family == FAMILY_FLOATING || type->family == FAMILY_COMPLEX);
}

bool folds_regroup(const struct folding *folding, const struct datatype *type) {
    const struct operation *operation = folding->operation;
    if (operation == NULL || type == NULL || is_folded_here(operation, type)) return false;
    return kombazily_regroups((uint32_t)operation->number, type->basic) == 1;
}

uint32_t fold_items(const struct folding *folding, const void *low, void *high, size_t count,
                    const struct datatype *type) {
    const struct operation *operation = folding->operation;
    const size_t bytes = data_size(&type->layout, count);
    MPI_Datatype handle = folding->handle;
    int items = (int)count;
    if (!is_predefined(operation)) operation->function((void *)low, high, &items, &handle);
    else if (operation->number > ENGINE_BXOR)
        fold_pairs(type->pair, operation->number == OPERATION_MAXLOC, low, high, count);
    else if (type->family == FAMILY_COMPLEX && operation->number == ENGINE_PROD)
        multiply_complex(type->layout.numbers.size / 2, low, high, count);
    else if (type->basic == ENGINE_BYTE && type->family == FAMILY_FLOATING)
        fold_long_doubles_into((enum engine_operation)operation->number, low, high, count);
    else if (type->basic == ENGINE_BYTE && type->family == FAMILY_COMPLEX)
        fold_long_doubles_into((enum engine_operation)operation->number, low, high, 2 * count);
    else return kombazily_fold((uint32_t)operation->number, type->basic, low, bytes, high, bytes);
    return 0;
}

/* ---- operations of the program (5.9.5, 5.9.7) ---- */

/* Gives the predefined operations their places. */
static bool open_table(void) {
    while (operations.count < PREDEFINED_COUNT)
        if (table_add(&operations, &predefined[operations.count]) == 0) return false;
    return true;
}

int MPI_Op_create(MPI_User_function *user_fn, int commute, MPI_Op *op) {
    NOTE_CALLER();
    static const char call[] = "MPI_Op_create";
    check_running(call);
    int class = check_result(MPI_COMM_WORLD, call, op, "op");
    if (class != MPI_SUCCESS) return class;
    if (user_fn == NULL) return raise_on(MPI_COMM_WORLD, call, MPI_ERR_ARG, "the function is NULL");
    struct operation *made = open_table() ? malloc(sizeof *made) : NULL;
    int64_t handle = made == NULL ? 0 : table_add(&operations, made);
    if (handle == 0) {
        free(made);
        return raise_on(MPI_COMM_WORLD, call, MPI_ERR_NO_MEM, "no memory for an operation");
    }
    *made = (struct operation){.function = user_fn, .commutes = commute != 0, .uses = 1, .name = "an operation"};
    *op = (MPI_Op)(intptr_t)handle;
    return MPI_SUCCESS;
}

int MPI_Op_free(MPI_Op *op) {
    NOTE_CALLER();
    static const char call[] = "MPI_Op_free";
    check_running(call);
    int class = check_result(MPI_COMM_WORLD, call, op, "op");
    if (class != MPI_SUCCESS) return class;
    struct operation *own = operation_at(*op);
    if (own == NULL) return raise_on(MPI_COMM_WORLD, call, MPI_ERR_OP, "no such operation");
    if (is_predefined(own)) return raise_on(MPI_COMM_WORLD, call, MPI_ERR_OP, "%s can't be freed", own->name);
    table_remove(&operations, (intptr_t)*op);
    release_operation(own);
    *op = MPI_OP_NULL;
    return MPI_SUCCESS;
}

int MPI_Op_commutative(MPI_Op op, int *commute) {
    NOTE_CALLER();
    static const char call[] = "MPI_Op_commutative";
    check_running(call);
    int class = check_result(MPI_COMM_WORLD, call, commute, "commute");
    if (class != MPI_SUCCESS) return class;
    const struct operation *own = operation_at(op);
    if (own == NULL) return raise_on(MPI_COMM_WORLD, call, MPI_ERR_OP, "no such operation");
    *commute = own->commutes;
    return MPI_SUCCESS;
}

/* Handles as Fortran has them (17.2.4): the low halves of their numbers, which name what lives now. */
MPI_Fint MPI_Op_c2f(MPI_Op op) { return (MPI_Fint)(intptr_t)op; }
MPI_Op MPI_Op_f2c(MPI_Fint op) {
    NOTE_CALLER();
    int64_t number = table_number(&operations, (uint32_t)op);
    return (MPI_Op)(intptr_t)(number == 0 ? op : number);
}

int MPI_Reduce_local(const void *inbuf, void *inoutbuf, int count, MPI_Datatype datatype, MPI_Op op) {
    NOTE_CALLER();
    static const char call[] = "MPI_Reduce_local";
    struct datatype *type;
    struct folding folding = {.handle = datatype};
    check_running(call);
    int class = check_count(MPI_COMM_WORLD, call, count);
    if (class == MPI_SUCCESS) class = check_type(MPI_COMM_WORLD, call, datatype, &type);
    if (class == MPI_SUCCESS) class = check_operation(MPI_COMM_WORLD, call, op, type, &folding.operation);
    if (class == MPI_SUCCESS) class = check_buffer(MPI_COMM_WORLD, call, inbuf, count, type);
    if (class == MPI_SUCCESS) class = check_buffer(MPI_COMM_WORLD, call, inoutbuf, count, type);
    if (class != MPI_SUCCESS || count == 0) return class;
    uint32_t number = fold_items(&folding, inbuf, inoutbuf, (size_t)count, type);
    return number == 0 ? MPI_SUCCESS : raise_number(MPI_COMM_WORLD, call, number);
}
