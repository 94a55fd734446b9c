/* The types of C programs (MPI 3.1, 3.2.2 and 4.1). */
#include "types.h"

#include "attributes.h"
#include "engine.h"
#include "errors.h"
#include "explored.h"
#include "internal.h"
#include "names.h"
#include "table.h"

#include <limits.h>
#include <stdlib.h>
#include <string.h>

/* All types. Those that have names in mpi.h have the first places, from when the first other one is made. */
static struct table types = TABLE_OF(KIND_DATATYPE);

static int64_t number_of(MPI_Datatype handle) { return (intptr_t)handle; }

struct datatype *datatype_of(MPI_Datatype handle) {
    int64_t place = number_of(handle) - HANDLE(KIND_DATATYPE, 0);
    if (place >= 0 && place < NAMED_TYPES) return &named_types[place];
    return table_find(&types, number_of(handle));
}

void hold_type(const struct datatype *type) { ((struct datatype *)type)->uses++; }

/* Gives back what a type has of its own, and the envelope's hold on others: those that nobody holds any more are put in
 * front of a list. */
static struct datatype *give_back(struct datatype *own, struct datatype *list) {
    layout_free(&own->layout);
    release_signature(own->signature);
    struct envelope *envelope = own->envelope;
    for (int i = 0; envelope != NULL && i < envelope->type_count; i++) {
        struct datatype *old = envelope->types[i];
        if (--old->uses > 0 || old->is_predefined) continue;
        old->next = list;
        list = old;
    }
    if (envelope != NULL) {
        free(envelope->integers);
        free(envelope->addresses);
        free(envelope->types);
    }
    free(envelope);
    free(own);
    return list;
}

void release_type(const struct datatype *type) {
    struct datatype *list = (struct datatype *)type;
    if (--list->uses > 0 || list->is_predefined) return;
    list->next = NULL;
    while (list != NULL) list = give_back(list, list->next);
}

uint32_t types_left(uint32_t *numbers, uint32_t room) {
    uint32_t count = 0;
    for (int place = NAMED_TYPES; place < types.count; place++) {
        const struct datatype *own = types.places[place].object;
        if (own == NULL || own->is_predefined) continue;
        if (count < room) numbers[count] = (uint32_t)place;
        count++;
    }
    return count;
}

void close_types(void) {
    for (int place = NAMED_TYPES; place < types.count; place++) {
        struct datatype *own = types.places[place].object;
        if (own == NULL) continue;
        own->is_predefined = false;
        release_type(own);
    }
    table_free(&types);
}

MPI_Datatype find_predefined(int combiner, const int *integers, int count) {
    for (int place = NAMED_TYPES; place < types.count; place++) {
        const struct datatype *own = types.places[place].object;
        if (own == NULL || !own->is_predefined || own->envelope->combiner != combiner) continue;
        if (memcmp(own->envelope->integers, integers, (size_t)count * sizeof *integers) != 0) continue;
        return (MPI_Datatype)(intptr_t)table_number(&types, (uint32_t)HANDLE(KIND_DATATYPE, place));
    }
    return MPI_DATATYPE_NULL;
}

MPI_Datatype add_handle(struct datatype *type) {
    if (type >= named_types && type < named_types + NAMED_TYPES)
        return (MPI_Datatype)(intptr_t)HANDLE(KIND_DATATYPE, type - named_types);
    if (type->is_predefined) {
        const struct envelope *of = type->envelope;
        MPI_Datatype own = find_predefined(of->combiner, of->integers, of->integer_count);
        if (own != MPI_DATATYPE_NULL) return own;
    }
    while (types.count < NAMED_TYPES)
        if (table_add(&types, &named_types[types.count]) == 0) return MPI_DATATYPE_NULL;
    int64_t number = table_add(&types, type);
    if (number == 0) return MPI_DATATYPE_NULL;
    hold_type(type);
    explored_made(MADE_TYPE, (uint32_t)number & PLACE_MASK);
    return (MPI_Datatype)(intptr_t)number;
}

int check_any_type(const char *call, MPI_Datatype handle, struct datatype **found) {
    check_running(call);
    *found = datatype_of(handle);
    if (handle == MPI_DATATYPE_NULL)
        return raise_on(MPI_COMM_WORLD, call, MPI_ERR_TYPE, "the type is MPI_DATATYPE_NULL");
    return *found != NULL ? MPI_SUCCESS : raise_on(MPI_COMM_WORLD, call, MPI_ERR_TYPE, "no such type");
}

int MPI_Type_commit(MPI_Datatype *datatype) {
    NOTE_CALLER();
    struct datatype *own;
    check_running("MPI_Type_commit");
    int class = check_result(MPI_COMM_WORLD, "MPI_Type_commit", datatype, "datatype");
    if (class == MPI_SUCCESS) class = check_any_type("MPI_Type_commit", *datatype, &own);
    if (class == MPI_SUCCESS) own->is_committed = true;
    return class;
}

int MPI_Type_free(MPI_Datatype *datatype) {
    NOTE_CALLER();
    struct datatype *own;
    check_running("MPI_Type_free");
    int class = check_result(MPI_COMM_WORLD, "MPI_Type_free", datatype, "datatype");
    if (class == MPI_SUCCESS) class = check_any_type("MPI_Type_free", *datatype, &own);
    if (class != MPI_SUCCESS) return class;
    if (own->is_predefined) return raise_on(MPI_COMM_WORLD, "MPI_Type_free", MPI_ERR_TYPE, "%s is predefined", own->of);
    class = delete_type_values(*datatype, "MPI_Type_free");
    if (class != MPI_SUCCESS) return class;
    table_remove(&types, number_of(*datatype));
    release_type(own);
    *datatype = MPI_DATATYPE_NULL;
    return MPI_SUCCESS;
}

/* ---- sizes and bounds ---- */

int MPI_Type_size(MPI_Datatype datatype, int *size) {
    NOTE_CALLER();
    struct datatype *own;
    int class = check_any_type("MPI_Type_size", datatype, &own);
    if (class == MPI_SUCCESS) class = check_result(MPI_COMM_WORLD, "MPI_Type_size", size, "size");
    if (class == MPI_SUCCESS)
        *size = own->layout.numbers.size > INT_MAX ? MPI_UNDEFINED : (int)own->layout.numbers.size;
    return class;
}

int MPI_Type_size_x(MPI_Datatype datatype, MPI_Count *size) {
    NOTE_CALLER();
    struct datatype *own;
    int class = check_any_type("MPI_Type_size_x", datatype, &own);
    if (class == MPI_SUCCESS) class = check_result(MPI_COMM_WORLD, "MPI_Type_size_x", size, "size");
    if (class == MPI_SUCCESS) *size = (MPI_Count)own->layout.numbers.size;
    return class;
}

/* A type whose two bounds are asked for: of its items, or of their data alone. Their names are the arguments'. */
struct bounds {
    ptrdiff_t lower, extent;
};
static int find_bounds(const char *call, MPI_Datatype datatype, bool is_true, const void *lower, const void *extent,
                       struct bounds *found) {
    struct datatype *own;
    int class = check_any_type(call, datatype, &own);
    if (class == MPI_SUCCESS) class = check_result(MPI_COMM_WORLD, call, lower, is_true ? "true_lb" : "lb");
    if (class == MPI_SUCCESS) class = check_result(MPI_COMM_WORLD, call, extent, is_true ? "true_extent" : "extent");
    if (class != MPI_SUCCESS) return class;
    const struct type_numbers *of = &own->layout.numbers;
    if (is_true) *found = (struct bounds){of->true_lower, of->true_upper - of->true_lower};
    else *found = (struct bounds){of->lower, of->extent};
    return MPI_SUCCESS;
}

int MPI_Type_get_extent(MPI_Datatype datatype, MPI_Aint *lb, MPI_Aint *extent) {
    NOTE_CALLER();
    struct bounds found;
    int class = find_bounds("MPI_Type_get_extent", datatype, false, lb, extent, &found);
    if (class == MPI_SUCCESS) *lb = found.lower, *extent = found.extent;
    return class;
}

int MPI_Type_get_extent_x(MPI_Datatype datatype, MPI_Count *lb, MPI_Count *extent) {
    NOTE_CALLER();
    struct bounds found;
    int class = find_bounds("MPI_Type_get_extent_x", datatype, false, lb, extent, &found);
    if (class == MPI_SUCCESS) *lb = found.lower, *extent = found.extent;
    return class;
}

int MPI_Type_get_true_extent(MPI_Datatype datatype, MPI_Aint *true_lb, MPI_Aint *true_extent) {
    NOTE_CALLER();
    struct bounds found;
    int class = find_bounds("MPI_Type_get_true_extent", datatype, true, true_lb, true_extent, &found);
    if (class == MPI_SUCCESS) *true_lb = found.lower, *true_extent = found.extent;
    return class;
}

int MPI_Type_get_true_extent_x(MPI_Datatype datatype, MPI_Count *true_lb, MPI_Count *true_extent) {
    NOTE_CALLER();
    struct bounds found;
    int class = find_bounds("MPI_Type_get_true_extent_x", datatype, true, true_lb, true_extent, &found);
    if (class == MPI_SUCCESS) *true_lb = found.lower, *true_extent = found.extent;
    return class;
}

/* The names of MPI-1 (15.1): one bound each. */
static int find_bound(const char *call, MPI_Datatype datatype, const MPI_Aint *result, const char *name,
                      struct bounds *found) {
    int class = find_bounds(call, datatype, false, found, found, found);
    return class == MPI_SUCCESS ? check_result(MPI_COMM_WORLD, call, result, name) : class;
}

int MPI_Type_extent(MPI_Datatype datatype, MPI_Aint *extent) {
    NOTE_CALLER();
    struct bounds found = {0};
    int class = find_bound("MPI_Type_extent", datatype, extent, "extent", &found);
    if (class == MPI_SUCCESS) *extent = found.extent;
    return class;
}

int MPI_Type_lb(MPI_Datatype datatype, MPI_Aint *displacement) {
    NOTE_CALLER();
    struct bounds found = {0};
    int class = find_bound("MPI_Type_lb", datatype, displacement, "displacement", &found);
    if (class == MPI_SUCCESS) *displacement = found.lower;
    return class;
}

int MPI_Type_ub(MPI_Datatype datatype, MPI_Aint *displacement) {
    NOTE_CALLER();
    struct bounds found = {0};
    int class = find_bound("MPI_Type_ub", datatype, displacement, "displacement", &found);
    if (class == MPI_SUCCESS) *displacement = found.lower + found.extent;
    return class;
}

/* ---- names, handles, addresses ---- */

int MPI_Type_get_name(MPI_Datatype datatype, char *type_name, int *resultlen) {
    NOTE_CALLER();
    struct datatype *own;
    int class = check_any_type("MPI_Type_get_name", datatype, &own);
    if (class == MPI_SUCCESS) class = check_result(MPI_COMM_WORLD, "MPI_Type_get_name", type_name, "type_name");
    if (class == MPI_SUCCESS) class = check_result(MPI_COMM_WORLD, "MPI_Type_get_name", resultlen, "resultlen");
    if (class == MPI_SUCCESS) *resultlen = copy_name(type_name, own->name);
    return class;
}

int MPI_Type_set_name(MPI_Datatype datatype, const char *type_name) {
    NOTE_CALLER();
    struct datatype *own;
    int class = check_any_type("MPI_Type_set_name", datatype, &own);
    if (class == MPI_SUCCESS) class = check_result(MPI_COMM_WORLD, "MPI_Type_set_name", type_name, "type_name");
    if (class == MPI_SUCCESS) copy_name(own->name, type_name);
    return class;
}

MPI_Fint MPI_Type_c2f(MPI_Datatype datatype) { return (MPI_Fint)(intptr_t)datatype; }
MPI_Datatype MPI_Type_f2c(MPI_Fint datatype) {
    NOTE_CALLER();
    int64_t number = table_number(&types, (uint32_t)datatype);
    return (MPI_Datatype)(intptr_t)(number == 0 ? datatype : number);
}

/* Puts an address where a call is to answer it. */
static int tell_address(const char *call, const void *location, MPI_Aint *address) {
    check_running(call);
    int class = check_result(MPI_COMM_WORLD, call, address, "address");
    if (class == MPI_SUCCESS) *address = (MPI_Aint)location;
    return class;
}
int MPI_Get_address(const void *location, MPI_Aint *address) {
    NOTE_CALLER();
    return tell_address("MPI_Get_address", location, address);
}
int MPI_Address(void *location, MPI_Aint *address) {
    NOTE_CALLER();
    return tell_address("MPI_Address", location, address);
}

MPI_Aint MPI_Aint_add(MPI_Aint base, MPI_Aint disp) { return (MPI_Aint)((size_t)base + (size_t)disp); }
MPI_Aint MPI_Aint_diff(MPI_Aint addr1, MPI_Aint addr2) { return (MPI_Aint)((size_t)addr1 - (size_t)addr2); }
