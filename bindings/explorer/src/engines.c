/* The engines of all ranks of a run, in one world of the explorer's static library (joined_ranks.h). */
#include "joined_ranks.h"
#include "state.h"

#include <stdlib.h>

struct engines {
    struct joined_ranks ranks;
    bool is_dirty; /* something was asked since all had come */
};

/* What isn't 0 ends the explorer: what it would tell of such a run might not be so. */
static void check(uint32_t number) {
    enum { NOT_QUIET = 1 };
    if (number == 0) return;
    const char *why = number == NO_MEMORY ? "no memory" : number == NOT_QUIET ? "they aren't quiet" : "a fault";
    char text[80];
    snprintf(text, sizeof text, "the engines of a run: %s (%u)", why, (unsigned)number);
    give_up(text);
}

struct engines *engines_new(int size) {
    struct engines *all = room_for(NULL, 1, sizeof *all);
    *all = (struct engines){.is_dirty = false};
    check(kombazily_ranks_new(&all->ranks, (uint16_t)size));
    return all;
}

void engines_free(struct engines *all) {
    kombazily_ranks_free(&all->ranks);
    free(all);
}

void engines_call(struct engines *all, int rank, const struct engine_call *call, const uint8_t *bytes, size_t length,
                  struct engine_answer *answer) {
    kombazily_ranks_call(&all->ranks, (uint16_t)rank, call, bytes, length, answer);
    if (answer->number == NO_MEMORY) give_up("no memory"); /* it is the explorer's, and not the program's */
    all->is_dirty = true;
}

void engines_add_matches(struct engines *all, struct choices *choices, int rank, const uint32_t *ops,
                         const uint32_t *sources, size_t count) {
    check(kombazily_ranks_add_matches(&all->ranks, choices, (uint16_t)rank, ops, count, sources, count));
    all->is_dirty = true;
}

void engines_add_sights(struct engines *all, struct choices *choices, int rank, uint32_t op,
                        const struct engine_call *probe, int sources) {
    check(kombazily_ranks_add_sights(&all->ranks, choices, (uint16_t)rank, op, probe->communicator,
                                     (uint32_t)probe->peer, (uint32_t)sources, (uint32_t)probe->tag));
    all->is_dirty = true;
}

size_t engines_take(struct engines *all, int rank, uint8_t *into, size_t length) {
    return kombazily_ranks_take(&all->ranks, (uint16_t)rank, into, length);
}

void engines_settle(struct engines *all) {
    if (!all->is_dirty) return;
    all->is_dirty = false;
    check(kombazily_ranks_settle(&all->ranks));
}
