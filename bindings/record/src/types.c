/* Types, by what they consist of: see record.h. */
#include "record.h"

#include <stdlib.h>
#include <string.h>

enum { MOST_RUNS = 64 };

/* So many of one named type, one after the other. */
struct run {
    long count;
    MPI_Datatype type;
};
struct signature {
    struct run runs[MOST_RUNS];
    int count; /* -1: there are too many */
};

/* The types that have numbers. */
static struct numbered {
    MPI_Datatype type;
    int number;
} * types;
static int type_count, type_room, numbers;

static void add_run(struct signature *to, MPI_Datatype type, long count) {
    struct run *last = to->count > 0 ? &to->runs[to->count - 1] : NULL;
    if (to->count < 0 || count == 0) return;
    if (last != NULL && last->type == type) last->count += count;
    else if (to->count == MOST_RUNS) to->count = -1;
    else to->runs[to->count++] = (struct run){count, type};
}

static void add_signature(struct signature *to, const struct signature *from, long times) {
    if (from->count < 0) to->count = -1;
    if (from->count == 1) add_run(to, from->runs[0].type, times * from->runs[0].count);
    for (long k = 0; from->count > 1 && to->count >= 0 && k < times; k++)
        for (int i = 0; i < from->count; i++) add_run(to, from->runs[i].type, from->runs[i].count);
}

static void signature_of(MPI_Datatype type, struct signature *into);

/* The parts of a structure, or what every other type repeats. */
static void add_parts(MPI_Datatype type, int combiner, const int *numbers_of, const MPI_Datatype *parts, int part_count,
                      struct signature *into) {
    for (int i = 0; i < part_count; i++) {
        int size = 0, part_size = 0;
        struct signature part;
        PMPI_Type_size(type, &size);
        PMPI_Type_size(parts[i], &part_size);
        if (part_size == 0) continue;
        signature_of(parts[i], &part);
        add_signature(into, &part, combiner == MPI_COMBINER_STRUCT ? numbers_of[i + 1] : size / part_size);
    }
}

static bool is_named(MPI_Datatype type) {
    int numbers_of, addresses, parts, combiner;
    PMPI_Type_get_envelope(type, &numbers_of, &addresses, &parts, &combiner);
    return combiner == MPI_COMBINER_NAMED;
}

static void *room_for(int count, size_t each) {
    void *made = malloc((size_t)(count + 1) * each);
    if (made == NULL) abort();
    return made;
}

static void signature_of(MPI_Datatype type, struct signature *into) {
    int number_count, address_count, part_count, combiner;
    into->count = 0;
    PMPI_Type_get_envelope(type, &number_count, &address_count, &part_count, &combiner);
    if (combiner == MPI_COMBINER_NAMED || part_count == 0) {
        add_run(into, type, 1);
        return;
    }
    int *numbers_of = room_for(number_count, sizeof *numbers_of);
    MPI_Aint *addresses = room_for(address_count, sizeof *addresses);
    MPI_Datatype *parts = room_for(part_count, sizeof *parts);
    PMPI_Type_get_contents(type, number_count, address_count, part_count, numbers_of, addresses, parts);
    add_parts(type, combiner, numbers_of, parts, part_count, into);
    for (int i = 0; i < part_count; i++)
        if (!is_named(parts[i])) PMPI_Type_free(&parts[i]);
    free(numbers_of), free(addresses), free(parts);
}

/* ---- numbers ---- */

/* A type of which too much would be to be said is told by its size alone. */
static void write_type(int number, MPI_Datatype type) {
    struct signature signature;
    char name[MPI_MAX_OBJECT_NAME];
    int size = 0, length;
    PMPI_Type_size(type, &size);
    signature_of(type, &signature);
    put("type %d %d", number, size);
    for (int i = 0; i < signature.count; i++) {
        PMPI_Type_get_name(signature.runs[i].type, name, &length);
        put(" %ld %s", signature.runs[i].count, length > 0 ? name : "?");
    }
    end_line();
}

int type_number(MPI_Datatype type) {
    if (type == MPI_DATATYPE_NULL) return 0;
    for (int i = 0; i < type_count; i++)
        if (types[i].type == type) return types[i].number;
    if (type_count == type_room) {
        type_room = 2 * type_room + 16;
        types = realloc(types, (size_t)type_room * sizeof *types);
        if (types == NULL) abort();
    }
    types[type_count++] = (struct numbered){type, ++numbers};
    write_type(numbers, type);
    return numbers;
}

/* Another type may have its handle from now on. */
int MPI_Type_free(MPI_Datatype *type) {
    const MPI_Datatype old = *type;
    bool is_own = begin_look();
    int code = PMPI_Type_free(type);
    for (int i = 0; is_own && code == MPI_SUCCESS && i < type_count; i++)
        if (types[i].type == old) types[i--] = types[--type_count];
    return end_look(code);
}
