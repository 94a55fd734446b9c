/* The ranks of a run in one world, as the explorer's static library holds them (the crate c_explorer). What a rank is
 * asked is a call of its engine, and what they send comes when they are settled, each datagram once and in order. */
#ifndef EXPLORER_JOINED_RANKS_H
#define EXPLORER_JOINED_RANKS_H

#include "choices.h"
#include "engine.h"

/* The ranks, or nothing where all of it is zero. */
struct joined_ranks {
    void *at;
    bool is_held;
};

/* So many ranks at their start, with messages of any length and frames of ENGINE_LEAST_FRAME bytes: 0, 13 (there are no
 * such jobs) or 14 (no memory). What was held is gone, but where it isn't 0. */
uint32_t kombazily_ranks_new(struct joined_ranks *ranks, uint16_t size);
void kombazily_ranks_free(struct joined_ranks *ranks);

/* As kombazily_call, at this rank: refused with 5 where there is no such rank, with 81 where nothing is held. */
void kombazily_ranks_call(struct joined_ranks *ranks, uint16_t rank, const struct engine_call *call,
                          const uint8_t *bytes, size_t length, struct engine_answer *answer);
/* Copies data of the last answer of a rank out that brought any: how many bytes. */
size_t kombazily_ranks_take(struct joined_ranks *ranks, uint16_t rank, uint8_t *into, size_t length);

/* Each source of each receive of any source that waits in the row of this rank is asked by a probe of the rank: where
 * one has such a message, the receive may take it, unless one that was begun before it does, which adds a move at the
 * fence. Of each receive of the row, in order, it is told the number of it among its rank's and how many ranks its
 * communicator has. 0; 5 (no such rank), 14, 81, 85 (it is told of more or fewer receives). */
uint32_t kombazily_ranks_add_matches(struct joined_ranks *ranks, struct choices *choices, uint16_t rank,
                                     const uint32_t *ops, size_t op_count, const uint32_t *sources,
                                     size_t source_count);
/* The same for a probe of the rank, the `op`-th of what it looks at: of this source, or of any (ENGINE_ANY) of a
 * communicator of so many ranks. It may see a message unless a receive that waits takes it. */
uint32_t kombazily_ranks_add_sights(struct joined_ranks *ranks, struct choices *choices, uint16_t rank, uint32_t op,
                                    uint32_t communicator, uint32_t source, uint32_t sources, uint32_t tag);

/* All that was sent comes, and what is sent for it: 0, and then all ranks are quiet: nothing waits and all is
 * acknowledged; 1, they aren't; 5 (something was sent to a rank that there isn't), 14, 81. */
uint32_t kombazily_ranks_settle(struct joined_ranks *ranks);

#endif
