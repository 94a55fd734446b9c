/* Types made of one or several older ones (MPI 3.1, 4.1.2 and 4.1.7, 15.1), but for arrays: see array_types.c. */
#include "attributes.h"
#include "errors.h"
#include "internal.h"
#include "type_makers.h"

#include <stdlib.h>

int MPI_Type_contiguous(int count, MPI_Datatype oldtype, MPI_Datatype *newtype) {
    NOTE_CALLER();
    const char *call = "MPI_Type_contiguous";
    struct datatype *old;
    struct maker maker;
    int class = check_making(call, oldtype, newtype, &old);
    if (class == MPI_SUCCESS) class = check_count(MPI_COMM_WORLD, call, count);
    if (class != MPI_SUCCESS) return class;
    maker_begin(&maker, call, MPI_COMBINER_CONTIGUOUS, 1, 0, 1);
    maker_note(&maker, count);
    maker_note_type(&maker, old);
    maker_block(&maker, old, 0, 1, (size_t)count);
    return maker_hand_out(&maker, newtype);
}

int MPI_Type_dup(MPI_Datatype oldtype, MPI_Datatype *newtype) {
    NOTE_CALLER();
    struct datatype *old;
    struct maker maker;
    int class = check_making("MPI_Type_dup", oldtype, newtype, &old);
    if (class != MPI_SUCCESS) return class;
    maker_begin(&maker, "MPI_Type_dup", MPI_COMBINER_DUP, 0, 0, 1);
    maker_note_type(&maker, old);
    maker_copy(&maker, old);
    if (maker.type != NULL) maker.type->is_committed = old->is_committed;
    class = maker_hand_out(&maker, newtype);
    if (class != MPI_SUCCESS) return class;
    class = copy_type_values(oldtype, "MPI_Type_dup", *newtype);
    if (class != MPI_SUCCESS) (void)MPI_Type_free(newtype);
    return class;
}

int MPI_Type_create_resized(MPI_Datatype oldtype, MPI_Aint lb, MPI_Aint extent, MPI_Datatype *newtype) {
    NOTE_CALLER();
    const char *call = "MPI_Type_create_resized";
    struct datatype *old;
    struct maker maker;
    int class = check_making(call, oldtype, newtype, &old);
    if (class != MPI_SUCCESS) return class;
    maker_begin(&maker, call, MPI_COMBINER_RESIZED, 0, 2, 1);
    maker_note_addresses(&maker, (MPI_Aint[]){lb, extent}, 2);
    maker_note_type(&maker, old);
    maker_copy(&maker, old);
    making_resize(&maker.making, lb, extent, 1);
    return maker_hand_out(&maker, newtype);
}

/* ---- vectors ---- */

static int check_vector(const char *call, int count, int blocklength, MPI_Datatype oldtype, const MPI_Datatype *newtype,
                        struct datatype **old) {
    int class = check_making(call, oldtype, newtype, old);
    if (class == MPI_SUCCESS) class = check_count(MPI_COMM_WORLD, call, count);
    return class == MPI_SUCCESS ? check_number(call, "blocklength", blocklength) : class;
}

int MPI_Type_vector(int count, int blocklength, int stride, MPI_Datatype oldtype, MPI_Datatype *newtype) {
    NOTE_CALLER();
    struct datatype *old;
    struct maker maker;
    int class = check_vector("MPI_Type_vector", count, blocklength, oldtype, newtype, &old);
    if (class != MPI_SUCCESS) return class;
    maker_begin(&maker, "MPI_Type_vector", MPI_COMBINER_VECTOR, 3, 0, 1);
    maker_note_all(&maker, (int[]){count, blocklength, stride}, 3);
    maker_note_type(&maker, old);
    maker_blocks(&maker, old, 0, (size_t)count, (size_t)blocklength, stride, old->layout.numbers.extent);
    return maker_hand_out(&maker, newtype);
}

static int make_hvector(const char *call, int count, int blocklength, MPI_Aint stride, MPI_Datatype oldtype,
                        MPI_Datatype *newtype) {
    struct datatype *old;
    struct maker maker;
    int class = check_vector(call, count, blocklength, oldtype, newtype, &old);
    if (class != MPI_SUCCESS) return class;
    maker_begin(&maker, call, MPI_COMBINER_HVECTOR, 2, 1, 1);
    maker_note_all(&maker, (int[]){count, blocklength}, 2);
    maker_note_addresses(&maker, &stride, 1);
    maker_note_type(&maker, old);
    maker_blocks(&maker, old, 0, (size_t)count, (size_t)blocklength, stride, 1);
    return maker_hand_out(&maker, newtype);
}

int MPI_Type_create_hvector(int count, int blocklength, MPI_Aint stride, MPI_Datatype oldtype, MPI_Datatype *newtype) {
    NOTE_CALLER();
    return make_hvector("MPI_Type_create_hvector", count, blocklength, stride, oldtype, newtype);
}

int MPI_Type_hvector(int count, int blocklength, MPI_Aint stride, MPI_Datatype oldtype, MPI_Datatype *newtype) {
    NOTE_CALLER();
    return make_hvector("MPI_Type_hvector", count, blocklength, stride, oldtype, newtype);
}

/* ---- blocks of one type ---- */

/* The blocks of an indexed type: each of its own length, or all of one; at places in extents, or in bytes. */
struct blocks {
    const char *call;
    int combiner, count;
    const int *lengths;
    int length; /* where `lengths` is NULL */
    const int *places;
    const MPI_Aint *addresses; /* where `places` is NULL */
    bool is_of_one_length, is_in_bytes;
};

static int check_lengths(const char *call, int count, const int *lengths) {
    int class = check_list(call, "array_of_blocklengths", lengths, count);
    for (int i = 0; class == MPI_SUCCESS && i < count; i++)
        if (lengths[i] < 0)
            class = raise_on(MPI_COMM_WORLD, call, MPI_ERR_ARG, "array_of_blocklengths[%d] is %d", i, lengths[i]);
    return class;
}

static int check_blocks(const struct blocks *blocks, MPI_Datatype oldtype, const MPI_Datatype *newtype,
                        struct datatype **old) {
    const void *places = blocks->is_in_bytes ? (const void *)blocks->addresses : blocks->places;
    int class = check_making(blocks->call, oldtype, newtype, old);
    if (class == MPI_SUCCESS) class = check_count(MPI_COMM_WORLD, blocks->call, blocks->count);
    if (class == MPI_SUCCESS && blocks->is_of_one_length)
        class = check_number(blocks->call, "blocklength", blocks->length);
    else if (class == MPI_SUCCESS) class = check_lengths(blocks->call, blocks->count, blocks->lengths);
    if (class == MPI_SUCCESS) class = check_list(blocks->call, "array_of_displacements", places, blocks->count);
    return class;
}

/* Makes the type of blocks of one type. */
static int make_blocks(const struct blocks *blocks, MPI_Datatype oldtype, MPI_Datatype *newtype) {
    struct datatype *old;
    struct maker maker;
    int count = blocks->count, class = check_blocks(blocks, oldtype, newtype, &old);
    if (class != MPI_SUCCESS) return class;
    maker_begin(&maker, blocks->call, blocks->combiner, 2 * (size_t)count + 2, (size_t)count, 1);
    maker_note(&maker, count);
    if (blocks->is_of_one_length) maker_note(&maker, blocks->length);
    else maker_note_all(&maker, blocks->lengths, count);
    if (blocks->is_in_bytes) maker_note_addresses(&maker, blocks->addresses, count);
    else maker_note_all(&maker, blocks->places, count);
    maker_note_type(&maker, old);
    for (int i = 0; i < count && maker.making.end == LAYOUT_MADE; i++) {
        int length = blocks->is_of_one_length ? blocks->length : blocks->lengths[i];
        if (blocks->is_in_bytes) maker_block(&maker, old, blocks->addresses[i], 1, (size_t)length);
        else maker_block(&maker, old, blocks->places[i], old->layout.numbers.extent, (size_t)length);
    }
    return maker_hand_out(&maker, newtype);
}

int MPI_Type_indexed(int count, const int array_of_blocklengths[], const int array_of_displacements[],
                     MPI_Datatype oldtype, MPI_Datatype *newtype) {
    NOTE_CALLER();
    const struct blocks blocks = {.call = "MPI_Type_indexed",
                                  .combiner = MPI_COMBINER_INDEXED,
                                  .count = count,
                                  .lengths = array_of_blocklengths,
                                  .places = array_of_displacements};
    return make_blocks(&blocks, oldtype, newtype);
}

static int make_hindexed(const char *call, int count, const int *lengths, const MPI_Aint *addresses,
                         MPI_Datatype oldtype, MPI_Datatype *newtype) {
    const struct blocks blocks = {.call = call,
                                  .combiner = MPI_COMBINER_HINDEXED,
                                  .count = count,
                                  .lengths = lengths,
                                  .addresses = addresses,
                                  .is_in_bytes = true};
    return make_blocks(&blocks, oldtype, newtype);
}

int MPI_Type_create_hindexed(int count, const int array_of_blocklengths[], const MPI_Aint array_of_displacements[],
                             MPI_Datatype oldtype, MPI_Datatype *newtype) {
    NOTE_CALLER();
    return make_hindexed("MPI_Type_create_hindexed", count, array_of_blocklengths, array_of_displacements, oldtype,
                         newtype);
}

int MPI_Type_hindexed(int count, int array_of_blocklengths[], MPI_Aint array_of_displacements[], MPI_Datatype oldtype,
                      MPI_Datatype *newtype) {
    NOTE_CALLER();
    return make_hindexed("MPI_Type_hindexed", count, array_of_blocklengths, array_of_displacements, oldtype, newtype);
}

int MPI_Type_create_indexed_block(int count, int blocklength, const int array_of_displacements[], MPI_Datatype oldtype,
                                  MPI_Datatype *newtype) {
    NOTE_CALLER();
    const struct blocks blocks = {.call = "MPI_Type_create_indexed_block",
                                  .combiner = MPI_COMBINER_INDEXED_BLOCK,
                                  .count = count,
                                  .length = blocklength,
                                  .places = array_of_displacements,
                                  .is_of_one_length = true};
    return make_blocks(&blocks, oldtype, newtype);
}

int MPI_Type_create_hindexed_block(int count, int blocklength, const MPI_Aint array_of_displacements[],
                                   MPI_Datatype oldtype, MPI_Datatype *newtype) {
    NOTE_CALLER();
    const struct blocks blocks = {.call = "MPI_Type_create_hindexed_block",
                                  .combiner = MPI_COMBINER_HINDEXED_BLOCK,
                                  .count = count,
                                  .length = blocklength,
                                  .addresses = array_of_displacements,
                                  .is_of_one_length = true,
                                  .is_in_bytes = true};
    return make_blocks(&blocks, oldtype, newtype);
}

/* ---- blocks of several types ---- */

static int check_struct(const char *call, int count, const int *lengths, const MPI_Aint *places,
                        const MPI_Datatype *types, const MPI_Datatype *newtype) {
    check_running(call);
    int class = check_count(MPI_COMM_WORLD, call, count);
    if (class == MPI_SUCCESS) class = check_lengths(call, count, lengths);
    if (class == MPI_SUCCESS) class = check_list(call, "array_of_displacements", places, count);
    if (class == MPI_SUCCESS) class = check_list(call, "array_of_types", types, count);
    for (int i = 0; class == MPI_SUCCESS && i < count; i++)
        if (datatype_of(types[i]) == NULL)
            class = raise_on(MPI_COMM_WORLD, call, MPI_ERR_TYPE, "array_of_types[%d] is %s", i,
                             types[i] == MPI_DATATYPE_NULL ? "MPI_DATATYPE_NULL" : "no type");
    return class == MPI_SUCCESS ? check_result(MPI_COMM_WORLD, call, newtype, "newtype") : class;
}

static int make_struct(const char *call, int count, const int *lengths, const MPI_Aint *places,
                       const MPI_Datatype *types, MPI_Datatype *newtype) {
    struct maker maker;
    int class = check_struct(call, count, lengths, places, types, newtype);
    if (class != MPI_SUCCESS) return class;
    maker_begin(&maker, call, MPI_COMBINER_STRUCT, (size_t)count + 1, (size_t)count, (size_t)count);
    maker_note(&maker, count);
    maker_note_all(&maker, lengths, count);
    maker_note_addresses(&maker, places, count);
    for (int i = 0; i < count; i++) {
        struct datatype *old = datatype_of(types[i]);
        maker_note_type(&maker, old);
        maker_block(&maker, old, places[i], 1, (size_t)lengths[i]);
    }
    return maker_hand_out(&maker, newtype);
}

int MPI_Type_create_struct(int count, const int array_of_blocklengths[], const MPI_Aint array_of_displacements[],
                           const MPI_Datatype array_of_types[], MPI_Datatype *newtype) {
    NOTE_CALLER();
    return make_struct("MPI_Type_create_struct", count, array_of_blocklengths, array_of_displacements, array_of_types,
                       newtype);
}

int MPI_Type_struct(int count, int array_of_blocklengths[], MPI_Aint array_of_displacements[],
                    MPI_Datatype array_of_types[], MPI_Datatype *newtype) {
    NOTE_CALLER();
    return make_struct("MPI_Type_struct", count, array_of_blocklengths, array_of_displacements, array_of_types,
                       newtype);
}
