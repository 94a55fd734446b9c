/* Collectives over rows of elements: see rows.h. */
#include "rows.h"

#include "agreement.h"
#include "folds.h"
#include "internal.h"
#include "parts.h"
#include "turns.h"
#include "wait_lines.h"

#include <stdlib.h>
#include <string.h>

static void enter_and_wait(const struct engine_call *entry, int root, const void *data, size_t length,
                           struct engine_answer *answer) {
    call_engine(entry, data, length, answer);
    begin_wait(&(struct wait){.kind = WAIT_COLLECTIVE, .place = entry->communicator, .root = root});
    await_finish(answer);
    end_wait();
}

uint32_t enter_engine(const struct engine_call *entry, const void *data, size_t length, struct engine_answer *answer) {
    const bool is_rooted = entry->kind >= ENGINE_BCAST && entry->kind <= ENGINE_REDUCE;
    const int root = is_rooted ? entry->peer : -1;
    note_entry(entry);
    uint32_t number = process.is_threaded ? begin_turn(communicator_at(entry->communicator), root) : 0;
    if (number == 0) enter_and_wait(entry, root, data, length, answer);
    else *answer = (struct engine_answer){.kind = ENGINE_REFUSED, .number = number};
    if (process.is_threaded) end_turn();
    if (answer->number == NUMBER_MISMATCH) note_told(entry->communicator);
    return answer->number;
}

struct collective collective_of(const struct communicator *comm, int root, const struct datatype *type, size_t bytes) {
    /* Where there are no data, types needn't be the same at all members: they match by their signatures (5). */
    bool is_empty = bytes == 0;
    return (struct collective){comm, root, is_empty ? ENGINE_BYTE : type->basic, is_empty ? 1 : type->unit};
}

/* The call that enters a part of a collective. */
static struct engine_call entry_of(enum engine_call_kind kind, struct collective of, size_t bytes) {
    return (struct engine_call){
        .kind = kind, .communicator = of.comm->place, .peer = of.root, .basic = of.basic, .count = bytes / of.unit};
}

/* Takes the data that the last answer told of, from this byte on. */
static void take_data(struct collective of, size_t from, void *into, size_t length) {
    if (length != 0) take_from_engine(from / of.unit, into, length);
}

uint32_t broadcast_row(struct collective of, void *row, size_t length) {
    const size_t longest = longest_part(1, of.unit);
    const bool is_root = of.comm->rank == of.root;
    struct part part = first_part(length, longest);
    do {
        struct engine_call entry = entry_of(ENGINE_BCAST, of, part.length);
        struct engine_answer answer;
        char *own = length == 0 ? NULL : (char *)row + part.from;
        entry.has_data = is_root;
        uint32_t number = enter_engine(&entry, own, is_root ? part.length : 0, &answer);
        if (number != 0) return number;
        if (!is_root) take_data(of, 0, own, part.length);
    } while (next_part(&part, length, longest));
    return 0;
}

uint32_t gather_rows(struct collective of, const void *row, size_t length, unsigned char *all) {
    const size_t longest = longest_part(of.comm->size, of.unit);
    const size_t members = of.comm->rank == of.root ? (size_t)of.comm->size : 0;
    struct part part = first_part(length, longest);
    do {
        struct engine_call entry = entry_of(ENGINE_GATHER, of, part.length);
        struct engine_answer answer;
        const char *own = length == 0 ? NULL : (const char *)row + part.from;
        uint32_t number = enter_engine(&entry, own, part.length, &answer);
        if (number != 0) return number;
        for (size_t member = 0; length != 0 && member < members; member++)
            take_data(of, member * part.length, all + member * length + part.from, part.length);
    } while (next_part(&part, length, longest));
    return 0;
}

/* A part of each member's block, one behind the other: in the room, or `all` itself where there is none, since one part
 * has the whole. */
static const unsigned char *parts_of_all(const unsigned char *all, size_t length, struct part part, size_t members,
                                         unsigned char *room) {
    if (room == NULL) return all;
    for (size_t member = 0; member < members; member++)
        memcpy(room + member * part.length, all + member * length + part.from, part.length);
    return room;
}

uint32_t scatter_rows(struct collective of, const unsigned char *all, size_t length, void *row) {
    const size_t longest = longest_part(of.comm->size, of.unit);
    const size_t members = of.comm->rank == of.root ? (size_t)of.comm->size : 0;
    struct part part = first_part(length, longest);
    unsigned char *room = NULL;
    if (members != 0 && part.length != length && (room = malloc(members * part.length)) == NULL)
        return NUMBER_NO_MEMORY;
    uint32_t number = 0;
    do {
        struct engine_call entry = entry_of(ENGINE_SCATTER, of, part.length);
        struct engine_answer answer;
        const unsigned char *own = members == 0 ? NULL : parts_of_all(all, length, part, members, room);
        entry.has_data = members != 0;
        number = enter_engine(&entry, own, members * part.length, &answer);
        if (number == 0 && row != NULL && length != 0) take_data(of, 0, (char *)row + part.from, part.length);
    } while (number == 0 && next_part(&part, length, longest));
    free(room);
    return number;
}

/* Enters a reduction of the engine; the result is taken where it is wanted. In an allreduce, and where the result
 * depends on the order, as in sums of floats, all members' blocks come together at one. */
static uint32_t combine_rows(enum engine_call_kind kind, struct collective of, enum engine_operation operation,
                             const void *row, size_t length, void *result) {
    const size_t longest = longest_part(of.comm->size, of.unit);
    struct part part = first_part(length, longest);
    do {
        struct engine_call entry = entry_of(kind, of, part.length);
        struct engine_answer answer;
        const char *own = length == 0 ? NULL : (const char *)row + part.from;
        entry.operation = operation;
        uint32_t number = enter_engine(&entry, own, part.length, &answer);
        if (number != 0) return number;
        if (result != NULL && length != 0) take_data(of, 0, (char *)result + part.from, part.length);
    } while (next_part(&part, length, longest));
    return 0;
}

uint32_t reduce_rows(struct collective of, enum engine_operation operation, const void *row, size_t length,
                     void *result) {
    return combine_rows(ENGINE_REDUCE, of, operation, row, length, of.comm->rank == of.root ? result : NULL);
}

uint32_t allreduce_rows(struct collective of, enum engine_operation operation, const void *row, size_t length,
                        void *result) {
    return combine_rows(ENGINE_ALLREDUCE, of, operation, row, length, result);
}

/* ---- long doubles ---- */

/* A reduction of long doubles. Behind a part of them stand as many bytes as the operation's number: so members whose
 * operations differ hand in different numbers of bytes, which the engine tells. */
struct fold {
    enum engine_operation operation;
    const unsigned char *row;
    unsigned char *result; /* at the root */
    unsigned char *room;   /* for a part and what stands behind it */
};
_Static_assert(ENGINE_PROD < sizeof(long double), "what stands behind a part is shorter than an element");

/* Folds the parts that the last answer brought, in rank order, into the result. */
static void fold_parts(struct collective of, const struct fold *fold, struct part part) {
    unsigned char *result = fold->result + part.from;
    const size_t length = part.length, each = length + (size_t)fold->operation;
    take_data(of, 0, result, length);
    for (size_t member = 1; member < (size_t)of.comm->size; member++) {
        take_data(of, member * each, fold->room, length);
        fold_long_doubles(fold->operation, result, fold->room, length / sizeof(long double));
    }
}

static uint32_t gather_part(struct collective of, const struct fold *fold, struct part part) {
    const size_t behind = (size_t)fold->operation;
    struct engine_call entry = entry_of(ENGINE_GATHER, of, part.length + behind);
    struct engine_answer answer;
    /* The engine doesn't read it here: it is for what agreement.h compares. */
    entry.operation = fold->operation;
    memset(fold->room + part.length, 0, behind);
    if (part.length != 0) memcpy(fold->room, fold->row + part.from, part.length);
    uint32_t number = enter_engine(&entry, fold->room, part.length + behind, &answer);
    if (number == 0 && part.length != 0 && of.comm->rank == of.root) fold_parts(of, fold, part);
    return number;
}

uint32_t fold_rows(struct collective of, enum engine_operation operation, const void *row, size_t length,
                   void *result) {
    const size_t longest = longest_part(of.comm->size, sizeof(long double));
    struct part part = first_part(length, longest);
    struct fold fold = {operation, row, result, malloc(part.length + (size_t)operation)};
    if (fold.room == NULL) return NUMBER_NO_MEMORY;
    uint32_t number;
    do number = gather_part(of, &fold, part);
    while (number == 0 && next_part(&part, length, longest));
    free(fold.room);
    return number;
}

/* All members enter an allreduce of as many bytes as they have long doubles, and of one more: the engine tells all of
 * them where kind, operation or count differ. */
static uint32_t agree_on_fold(struct collective of, enum engine_operation operation, size_t count) {
    const struct collective bytes = {of.comm, of.root, ENGINE_UINT8, 1};
    unsigned char *none = calloc(count + 1, 1);
    if (none == NULL) return NUMBER_NO_MEMORY;
    uint32_t number = allreduce_rows(bytes, operation, none, count + 1, NULL);
    free(none);
    return number;
}

uint32_t fold_rows_for_all(struct collective of, enum engine_operation operation, const void *row, size_t length,
                           void *result) {
    uint32_t number = agree_on_fold(of, operation, length / sizeof(long double));
    if (number == 0) number = fold_rows(of, operation, row, length, result);
    return number == 0 ? broadcast_row(of, result, length) : number;
}
