/* Types and operations of a record: see play.h. */
#include "play.h"

#include <stdlib.h>
#include <string.h>

#define NAMED(type)                                                                                                    \
    { #type, type }
static const struct named {
    const char *name;
    MPI_Datatype type;
} * named_types(void) {
    static const struct named all[] = {NAMED(MPI_CHAR),
                                       NAMED(MPI_SIGNED_CHAR),
                                       NAMED(MPI_UNSIGNED_CHAR),
                                       NAMED(MPI_BYTE),
                                       NAMED(MPI_PACKED),
                                       NAMED(MPI_SHORT),
                                       NAMED(MPI_UNSIGNED_SHORT),
                                       NAMED(MPI_INT),
                                       NAMED(MPI_UNSIGNED),
                                       NAMED(MPI_LONG),
                                       NAMED(MPI_UNSIGNED_LONG),
                                       NAMED(MPI_LONG_LONG_INT),
                                       NAMED(MPI_LONG_LONG),
                                       NAMED(MPI_UNSIGNED_LONG_LONG),
                                       NAMED(MPI_FLOAT),
                                       NAMED(MPI_DOUBLE),
                                       NAMED(MPI_LONG_DOUBLE),
                                       NAMED(MPI_WCHAR),
                                       NAMED(MPI_C_BOOL),
                                       NAMED(MPI_INT8_T),
                                       NAMED(MPI_INT16_T),
                                       NAMED(MPI_INT32_T),
                                       NAMED(MPI_INT64_T),
                                       NAMED(MPI_UINT8_T),
                                       NAMED(MPI_UINT16_T),
                                       NAMED(MPI_UINT32_T),
                                       NAMED(MPI_UINT64_T),
                                       NAMED(MPI_AINT),
                                       NAMED(MPI_COUNT),
                                       NAMED(MPI_OFFSET),
                                       NAMED(MPI_C_COMPLEX),
                                       NAMED(MPI_C_FLOAT_COMPLEX),
                                       NAMED(MPI_C_DOUBLE_COMPLEX),
                                       NAMED(MPI_FLOAT_INT),
                                       NAMED(MPI_DOUBLE_INT),
                                       NAMED(MPI_LONG_INT),
                                       NAMED(MPI_2INT),
                                       NAMED(MPI_SHORT_INT),
                                       NAMED(MPI_LONG_DOUBLE_INT),
                                       {NULL, MPI_DATATYPE_NULL}};
    return all;
}

static MPI_Datatype *types;
static int type_count;

static MPI_Datatype by_name(const char *name) {
    for (const struct named *it = named_types(); it->name != NULL; it++)
        if (strcmp(it->name, name) == 0) return it->type;
    return MPI_DATATYPE_NULL;
}

/* Packed data may be received as what was packed, and the other way round (MPI 3.1, 4.2), which this library doesn't
 * take: they are told by their size alone, too. */
bool is_known_type(const struct line *line) {
    const int size = number(line->words[2]);
    for (int i = 3; i + 1 < line->count; i += 2)
        if (by_name(line->words[i + 1]) == MPI_DATATYPE_NULL || strcmp(line->words[i + 1], "MPI_PACKED") == 0)
            return false;
    return size == 0 || line->count > 3;
}

/* The types that it is made of, one behind the other. */
static MPI_Datatype made_of(const struct line *line) {
    const int parts = (line->count - 3) / 2;
    int *counts = calloc((size_t)parts + 1, sizeof *counts);
    MPI_Aint *places = calloc((size_t)parts + 1, sizeof *places), lower, extent;
    MPI_Datatype *of = calloc((size_t)parts + 1, sizeof *of), made;
    if (counts == NULL || places == NULL || of == NULL) give_up("no memory for a type", "");
    for (int i = 0; i < parts; i++) {
        counts[i] = number(line->words[3 + 2 * i]);
        of[i] = by_name(line->words[4 + 2 * i]);
        MPI_Type_get_extent(of[i], &lower, &extent);
        places[i + 1] = places[i] + counts[i] * extent;
    }
    if (parts == 1 && counts[0] == 1) made = of[0];
    else {
        MPI_Type_create_struct(parts, counts, places, of, &made);
        MPI_Type_commit(&made);
    }
    free(counts), free(places), free(of);
    return made;
}

void add_type(const struct line *line, bool untyped) {
    const int own = number(line->words[1]), size = number(line->words[2]);
    if (own < 0) return;
    if (own >= type_count) {
        types = realloc(types, (size_t)(own + 1) * sizeof *types);
        if (types == NULL) give_up("no memory for a type", "");
        while (type_count <= own) types[type_count++] = MPI_BYTE;
    }
    if (!untyped) {
        types[own] = made_of(line);
        return;
    }
    MPI_Type_contiguous(size, MPI_BYTE, &types[own]);
    MPI_Type_commit(&types[own]);
}

MPI_Datatype type_of(const char *word) {
    const int own = number(word);
    return own > 0 && own < type_count ? types[own] : MPI_BYTE;
}

void *room_of(long count, MPI_Datatype type) {
    MPI_Aint lower, extent;
    MPI_Type_get_extent(type, &lower, &extent);
    void *room = calloc(count > 0 ? (size_t)count : 1, extent > 0 ? (size_t)extent : 1);
    if (room == NULL) give_up("no memory for a message", "");
    return room;
}

void free_types(void) {
    for (int i = 0; i < type_count; i++) {
        bool is_named = types[i] == MPI_BYTE;
        for (const struct named *it = named_types(); it->name != NULL; it++) is_named |= it->type == types[i];
        if (!is_named) MPI_Type_free(&types[i]);
    }
}

/* ---- operations ---- */

static void does_nothing(void *in, void *inout, int *count, MPI_Datatype *type) {
    (void)in, (void)inout, (void)count, (void)type;
}

static MPI_Op of_user(bool commutes) {
    static MPI_Op made[2] = {MPI_OP_NULL, MPI_OP_NULL};
    if (made[commutes] == MPI_OP_NULL) MPI_Op_create(does_nothing, commutes, &made[commutes]);
    return made[commutes];
}

MPI_Op op_of(const char *word) {
    const struct {
        const char *name;
        MPI_Op op;
    } known[] = {NAMED(MPI_MAX),  NAMED(MPI_MIN),  NAMED(MPI_SUM),    NAMED(MPI_PROD),
                 NAMED(MPI_LAND), NAMED(MPI_BAND), NAMED(MPI_LOR),    NAMED(MPI_BOR),
                 NAMED(MPI_LXOR), NAMED(MPI_BXOR), NAMED(MPI_MAXLOC), NAMED(MPI_MINLOC)};
    if (set.untyped) return of_user(strcmp(word, "ordered") != 0);
    for (size_t i = 0; i < sizeof known / sizeof *known; i++)
        if (strcmp(known[i].name, word) == 0) return known[i].op;
    return of_user(strcmp(word, "commutative") == 0);
}
