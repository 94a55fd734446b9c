/* Where the blocks of plans lie, and whose they are: see plan_runs.h. */
#include "explored.h"
#include "plan_runs.h"
#include "rows.h"
#include "worlds.h"

#include <stdlib.h>
#include <string.h>

/* ---- blocks ---- */

size_t place_length(struct place place) { return place.type == NULL ? 0 : data_size(&place.type->layout, place.count); }

const void *place_row(struct place from, void **room) {
    *room = NULL;
    return place_length(from) == 0 ? NULL : data_row(&from.type->layout, from.at, from.count, room);
}

uint32_t copy_place(struct place from, struct place into) {
    size_t length = place_length(from), wanted = place_length(into);
    if (length == 0 || wanted == 0 || (from.at == into.at && from.type == into.type)) return 0;
    void *room;
    const void *row = place_row(from, &room);
    if (row == NULL) return NUMBER_NO_MEMORY;
    unpack(&into.type->layout, row, length < wanted ? length : wanted, into.at);
    free(room);
    return 0;
}

void free_places(struct places *places) {
    for (size_t at = 0; at < places->count; at++)
        if (places->list[at].type != NULL) release_type(places->list[at].type);
    free(places->list);
    *places = (struct places){0};
}

/* ---- members ---- */

int plan_rank(const struct communicator *comm, int member) {
    if (comm->all_size == 1) return comm->world->rank;
    return comm->members == NULL ? member : comm->members[member];
}

int world_rank(const struct communicator *comm, int member) { return first_rank(comm->world, plan_rank(comm, member)); }

/* Asks the engine for the members. */
static uint32_t find_members(struct communicator *comm) {
    const size_t bytes = (size_t)comm->all_size * sizeof *comm->members;
    struct engine_answer answer;
    comm->members = malloc(bytes);
    if (comm->members == NULL) return NUMBER_NO_MEMORY;
    call_engine(&(struct engine_call){.kind = ENGINE_MEMBERS, .communicator = comm->place}, NULL, 0, &answer);
    if (answer.kind != ENGINE_FACT) return answer.number;
    take_from_engine(0, (uint8_t *)comm->members, bytes);
    return 0;
}

/* The numbers that all members have free. */
static uint32_t find_free(const struct communicator *comm, uint64_t free_numbers[PLAN_WORDS]) {
    for (int at = 0; at < PLAN_WORDS; at++) free_numbers[at] = ~comm->world->taken[at];
    const struct collective all = {comm, 0, ENGINE_UINT64, sizeof *free_numbers};
    return allreduce_rows(all, ENGINE_BAND, free_numbers, sizeof comm->world->taken, free_numbers);
}

uint32_t number_communicator(struct communicator *comm) {
    uint64_t free_numbers[PLAN_WORDS];
    /* A member alone sends nothing; nor does one whose calls an explorer answers. */
    if (comm->all_size == 1 || is_explored) return 0;
    uint32_t number = find_members(comm);
    if (number == 0) number = find_free(comm, free_numbers);
    if (number != 0) return number;
    for (uint32_t at = 0; at < PLAN_NUMBERS; at++) {
        if ((free_numbers[at / 64] >> at % 64 & 1) == 0) continue;
        comm->world->taken[at / 64] |= UINT64_C(1) << at % 64;
        comm->number = at;
        return 0;
    }
    return NUMBER_LIMIT;
}

void forget_number(struct communicator *comm) {
    if (comm->number > ENGINE_SELF) comm->world->taken[comm->number / 64] &= ~(UINT64_C(1) << comm->number % 64);
    free(comm->members);
    free(comm->persistents);
}

/* ---- persistent collectives ---- */

/* Those that the own rank has, and those that were free at all members when they agreed last, and are still to be
 * given.
 */
enum { PERSISTENT_WORDS = MOST_PERSISTENT / 64 };
struct persistent_numbers {
    uint64_t taken[PERSISTENT_WORDS], agreed[PERSISTENT_WORDS];
};

/* The first one that is to be given, or MOST_PERSISTENT. */
static uint32_t first_agreed(const struct persistent_numbers *numbers) {
    uint32_t at = 0;
    while (at < MOST_PERSISTENT && (numbers->agreed[at / 64] >> at % 64 & 1) == 0) at++;
    return at;
}

/* All members come here at the same one, since they have given as many: those that all of them have free. */
static uint32_t agree_on_numbers(const struct communicator *comm, struct persistent_numbers *numbers) {
    uint64_t own[PERSISTENT_WORDS];
    const struct collective all = {comm, 0, ENGINE_UINT64, sizeof *own};
    for (int at = 0; at < PERSISTENT_WORDS; at++) own[at] = ~numbers->taken[at];
    memcpy(numbers->agreed, own, sizeof own);
    return comm->all_size == 1 ? 0 : allreduce_rows(all, ENGINE_BAND, own, sizeof own, numbers->agreed);
}

uint32_t number_persistent(struct communicator *comm, uint32_t *made) {
    if (comm->persistents == NULL) {
        comm->persistents = calloc(1, sizeof *comm->persistents);
        if (comm->persistents == NULL) return NUMBER_NO_MEMORY;
        memset(comm->persistents->agreed, 0xff, sizeof comm->persistents->agreed);
    }
    struct persistent_numbers *numbers = comm->persistents;
    uint32_t number = first_agreed(numbers) < MOST_PERSISTENT ? 0 : agree_on_numbers(comm, numbers);
    if (number != 0) return number;
    *made = first_agreed(numbers);
    if (*made == MOST_PERSISTENT) return NUMBER_LIMIT;
    numbers->agreed[*made / 64] &= ~(UINT64_C(1) << *made % 64);
    numbers->taken[*made / 64] |= UINT64_C(1) << *made % 64;
    return 0;
}

void forget_persistent(struct communicator *comm, uint32_t made) {
    comm->persistents->taken[made / 64] &= ~(UINT64_C(1) << made % 64);
}
