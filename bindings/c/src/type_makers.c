/* How calls make types (MPI 3.1, 4.1): by copies of older ones, which add to the map, the signature and what the engine
 * carries the type as. See types.h. */
#include "type_makers.h"
#include "errors.h"

#include <stdlib.h>
#include <string.h>

int check_making(const char *call, MPI_Datatype oldtype, const MPI_Datatype *newtype, struct datatype **old) {
    check_running(call);
    *old = datatype_of(oldtype);
    if (oldtype == MPI_DATATYPE_NULL)
        return raise_on(MPI_COMM_WORLD, call, MPI_ERR_TYPE, "oldtype is MPI_DATATYPE_NULL");
    if (*old == NULL) return raise_on(MPI_COMM_WORLD, call, MPI_ERR_TYPE, "oldtype is no type");
    return check_result(MPI_COMM_WORLD, call, newtype, "newtype");
}

int check_number(const char *call, const char *name, int number) {
    return number >= 0 ? MPI_SUCCESS : raise_on(MPI_COMM_WORLD, call, MPI_ERR_ARG, "%s is %d", name, number);
}

int check_list(const char *call, const char *name, const void *list, int count) {
    if (list != NULL || count == 0) return MPI_SUCCESS;
    return raise_on(MPI_COMM_WORLD, call, MPI_ERR_ARG, "%s is NULL, for a count of %d", name, count);
}

/* What a type is carried as, and of what it is, that is made of several: see maker_end. One without data is carried as
 * its first one. */
static void carry(struct datatype *made, const struct datatype *item) {
    if (made->signature == NULL) {
        made->basic = item->basic;
        made->unit = item->unit;
        made->family = item->family;
        made->of = item->of;
        return;
    }
    if (made->of == item->of) return;
    made->family = FAMILY_OTHER;
    made->of = "several basic types";
}

/* ---- envelopes ---- */

static struct envelope *open_envelope(int combiner, size_t integers, size_t addresses, size_t types) {
    struct envelope *made = calloc(1, sizeof *made);
    if (made == NULL) return NULL;
    made->combiner = combiner;
    made->integers = calloc(integers + 1, sizeof *made->integers);
    made->addresses = calloc(addresses + 1, sizeof *made->addresses);
    made->types = calloc(types + 1, sizeof *made->types);
    if (made->integers != NULL && made->addresses != NULL && made->types != NULL) return made;
    free(made->integers);
    free(made->addresses);
    free(made->types);
    free(made);
    return NULL;
}

void maker_note(struct maker *maker, int integer) { maker_note_all(maker, &integer, 1); }

void maker_note_all(struct maker *maker, const int *integers, int count) {
    if (maker->type == NULL) return;
    struct envelope *own = maker->type->envelope;
    for (int i = 0; i < count; i++) own->integers[own->integer_count++] = integers[i];
}

void maker_note_addresses(struct maker *maker, const MPI_Aint *addresses, int count) {
    if (maker->type == NULL) return;
    struct envelope *own = maker->type->envelope;
    for (int i = 0; i < count; i++) own->addresses[own->address_count++] = addresses[i];
}

void maker_note_type(struct maker *maker, struct datatype *type) {
    if (maker->type == NULL) return;
    struct envelope *own = maker->type->envelope;
    if (own->type_count == 0) carry(maker->type, type);
    own->types[own->type_count++] = type;
    hold_type(type);
}

/* ---- making ---- */

void maker_begin(struct maker *maker, const char *call, int combiner, size_t integers, size_t addresses, size_t types) {
    *maker = (struct maker){.call = call, .type = malloc(sizeof *maker->type)};
    making_begin(&maker->making);
    if (maker->type == NULL) return;
    *maker->type =
        (struct datatype){.basic = ENGINE_BYTE, .unit = 1, .family = FAMILY_OTHER, .of = "nothing", .uses = 1};
    maker->type->envelope = open_envelope(combiner, integers, addresses, types);
    if (maker->type->envelope != NULL) return;
    free(maker->type);
    maker->type = NULL;
}

/* Notes that so many items of a type come next in the signature. */
static void sign(struct maker *maker, const struct datatype *item, size_t count) {
    if (maker->type == NULL || maker->making.end != LAYOUT_MADE || count == 0 || item->signature == NULL) return;
    carry(maker->type, item);
    if (!add_signature(&maker->type->signature, &maker->room, item->signature, count))
        maker->making.end = LAYOUT_NO_MEMORY;
}

void maker_block(struct maker *maker, const struct datatype *item, ptrdiff_t at, ptrdiff_t unit, size_t length) {
    making_block(&maker->making, &item->layout, at, unit, length);
    sign(maker, item, length);
}

void maker_blocks(struct maker *maker, const struct datatype *item, ptrdiff_t at, size_t count, size_t length,
                  ptrdiff_t stride, ptrdiff_t unit) {
    making_blocks(&maker->making, &item->layout, at, count, length, stride, unit);
    sign(maker, item, count * length);
}

void maker_copy(struct maker *maker, const struct datatype *item) { maker_block(maker, item, 0, 1, 1); }

int maker_end(struct maker *maker, struct datatype **made) {
    struct layout layout = {0};
    enum layout_end end = making_end(&maker->making, &layout);
    *made = maker->type;
    if (maker->type == NULL) layout_free(&layout);
    else maker->type->layout = layout;
    /* As each of its elements is, where all are carried alike, else as bytes. */
    if (maker->type != NULL && layout.numbers.kinds > 1) maker->type->basic = ENGINE_BYTE, maker->type->unit = 1;
    if (end == LAYOUT_MADE && maker->type != NULL) return MPI_SUCCESS;
    if (maker->type != NULL) release_type(maker->type);
    if (end == LAYOUT_TOO_LARGE)
        return raise_on(MPI_COMM_WORLD, maker->call, MPI_ERR_ARG,
                        "the type's size, a place or a bound would reach 2^63 bytes");
    return raise_on(MPI_COMM_WORLD, maker->call, MPI_ERR_NO_MEM, "no memory for a type");
}

int maker_hand_out(struct maker *maker, MPI_Datatype *newtype) {
    struct datatype *made;
    int class = maker_end(maker, &made);
    if (class != MPI_SUCCESS) return class;
    MPI_Datatype handle = add_handle(made);
    release_type(made);
    if (handle == MPI_DATATYPE_NULL)
        return raise_on(MPI_COMM_WORLD, maker->call, MPI_ERR_NO_MEM, "no memory for a type");
    *newtype = handle;
    return MPI_SUCCESS;
}
