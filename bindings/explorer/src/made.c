/* What ranks have made and freed: types and persistent requests, by the places where they were made, and communicators.
 * See state.h. */
#include "state.h"

#include <stdlib.h>
#include <string.h>

bool is_same_place(const struct place *a, const struct place *b) {
    return strcmp(a->name, b->name) == 0 && a->count == b->count &&
           memcmp(a->frames, b->frames, a->count * sizeof *a->frames) == 0;
}

/* ---- types and persistent requests ---- */

void note_made(struct steps *s, int rank) {
    enum { MOST_NUMBERS = 1 << 20 };
    struct rank *own = &s->ranks[rank];
    const uint32_t kind = (uint32_t)own->ask.call.order, number = (uint32_t)own->ask.call.peer;
    if (kind >= MADE_KINDS || number >= MOST_NUMBERS) return;
    struct made_row *row = &own->made[kind];
    while (row->count <= number) {
        row->of = one_more(row->of, row->count, &row->room, sizeof *row->of);
        row->of[row->count++] = (struct place){.count = 0};
    }
    row->of[number] = own->place;
}

void free_made(struct rank *own) {
    for (int kind = 0; kind < MADE_KINDS; kind++) free(own->made[kind].of);
}

/* Where the one of this number was made; where it isn't known, where the rank stands. */
static const struct place *place_of_made(const struct rank *own, enum made_kind kind, uint32_t number) {
    const struct made_row *row = &own->made[kind];
    return number < row->count && row->of[number].name[0] != '\0' ? &row->of[number] : &own->place;
}

uint32_t count_made(const struct rank *own, enum made_kind kind, const uint32_t *numbers, uint32_t count,
                    struct made_left *left, uint32_t known) {
    for (uint32_t i = 0; i < count; i++) {
        const struct place *place = place_of_made(own, kind, numbers[i]);
        uint32_t at = 0;
        while (at < known && (left[at].kind != kind || !is_same_place(left[at].place, place))) at++;
        if (at == known) left[known++] = (struct made_left){kind, 0, place};
        left[at].count++;
    }
    return known;
}

/* ---- communicators ---- */

void note_freed(struct steps *s, int rank) {
    struct members *of = members_of(s, rank, s->ranks[rank].ask.call.communicator);
    if (of == NULL) return;
    of->is_freed = true;
    of->freed_at = s->ranks[rank].place;
}

/* The communicator of this name as a rank has it, or NULL. */
static const struct members *named(const struct rank *own, uint64_t name) {
    for (int at = 0; at < own->members_count; at++)
        if (own->members[at].is_made && own->members[at].name == name) return &own->members[at];
    return NULL;
}

/* Tells of one that this rank freed, as the first of its members that did, and that others have still. */
static void tell_unfreed(struct steps *s, int rank, const struct members *freed) {
    uint64_t others = 0;
    char who[300];
    for (int other = 0; other < s->options.size; other++) {
        const struct members *its = named(&s->ranks[other], freed->name);
        if (its != NULL && its->is_freed && other < rank) return;
        if (its != NULL && !its->is_freed) others |= UINT64_C(1) << other;
    }
    if (others == 0) return;
    say_ranks(s, others, who, sizeof who);
    struct finding *it =
        note(s, rank, NEVER_ENTERED, "rank %d freed a communicator by %s at %%0, and %s never did (%s at %%1)", rank,
             freed->freed_at.name, who, freed->made_at.name);
    at_place(it, &freed->freed_at);
    at_place(it, &freed->made_at);
}

void tell_unfreed_members(struct steps *s) {
    bool has_failed[MOST_RANKS] = {false};
    for (int rank = 0; rank < s->options.size; rank++) has_failed[rank] = s->ranks[rank].has_failed;
    if (!kombazily_is_absence_told(has_failed, (size_t)s->options.size, true, false)) return;
    for (int rank = 0; rank < s->options.size; rank++) {
        const struct rank *own = &s->ranks[rank];
        for (int at = 0; at < own->members_count; at++)
            if (own->members[at].is_freed) tell_unfreed(s, rank, &own->members[at]);
    }
}
