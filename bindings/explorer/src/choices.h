/* What the explorer's static library decides (the crate c_explorer): which receives of a rank stand before a message,
 * which moves there are and which of them clash, and which run comes next. */
#ifndef EXPLORER_CHOICES_H
#define EXPLORER_CHOICES_H

#include <stdbool.h>
#include <stddef.h>
#include <stdint.h>

/* The search, and the rows and the fence of the run that is made; or nothing where all of it is zero. */
struct choices {
    void *at;
    bool is_held;
};

enum { CHOICES_MAKE, CHOICES_ENDED, CHOICES_ASLEEP, CHOICES_ASTRAY, CHOICES_OUT_OF_TURN };

/* A search at the beginning of its first run: 0, or 14 (no memory). What was held is gone. */
uint32_t kombazily_choices_new(struct choices *choices);
void kombazily_choices_free(struct choices *choices);

/* ---- rows ---- */

/* A run of so many ranks begins, none of which has begun a receive: 0, 14, or 81 (nothing is held). */
uint32_t kombazily_choices_start_run(struct choices *choices, uint16_t ranks);
/* A rank begins a receive, under this number of its own: 1, it waits for a decision, its own or that of one before it;
 * 0, it may be posted; 5 (no such rank), 14, 81. UINT32_MAX is any source, any tag. */
uint32_t kombazily_choices_begin(struct choices *choices, uint16_t rank, uint64_t operation, uint32_t communicator,
                                 uint32_t source, uint32_t tag);
/* Takes a receive that waits out of its row, since it is posted or cancelled: whether it stood there. */
bool kombazily_choices_take(struct choices *choices, uint16_t rank, uint64_t operation);
/* Whether one that waits would take a message of this source with this tag; or one that was begun before this one. */
bool kombazily_choices_is_wanted(struct choices *choices, uint16_t rank, uint32_t communicator, uint32_t source,
                                 uint32_t tag);
bool kombazily_choices_is_wanted_before(struct choices *choices, uint16_t rank, uint64_t operation,
                                        uint32_t communicator, uint32_t source, uint32_t tag);
/* Whether some message would be taken by this one or by one that was begun before it and waits. */
bool kombazily_choices_is_behind(struct choices *choices, uint16_t rank, uint64_t operation);

/* ---- the moves at a fence, which is where no rank runs ---- */

/* A new fence: no moves yet. What stands there is told next, and what messages make possible is asked of the ranks
 * (joined_ranks.h); it is decided which moves there are for it. */
void kombazily_choices_clear(struct choices *choices);
/* A probe may say no, where fewer looks in a row (`noes`) have said so than may: 0; 1, it may not; 14, 81. */
uint32_t kombazily_choices_add_no(struct choices *choices, uint16_t rank, uint32_t op, uint32_t noes, uint32_t most);
/* A rank stands in the call for a list of an ask of this kind. So many requests aren't null, and those at these places
 * are at their ends: 0; 1, it is kept from saying no; 14, 81, 83 (no such call). */
uint32_t kombazily_choices_add_list(struct choices *choices, uint16_t rank, uint32_t op, uint32_t noes, uint32_t most,
                                    uint32_t kind, uint32_t live, const uint32_t *ended, size_t count);
/* Leaves the first move that was told alone. Whether the choice at this place of a run may be another than the first
 * one there: where none before it was, or the first one that was is fewer than so many places before it. */
void kombazily_choices_keep_first(struct choices *choices);
bool kombazily_may_differ(bool differs, uint64_t first, uint64_t at, uint64_t most);
/* A send of the rank, its `op`-th, waits and may be buffered after all: 0, 14, 81. */
uint32_t kombazily_choices_add_buffer(struct choices *choices, uint16_t rank, uint32_t op, uint32_t target);
/* The move at this place, in the order in which they were told: whether there is one. Of a call for some of a list it
 * is each part of six requests at most that are at their ends, and of more all or one: `at` is a number for a row of
 * places, 1 for none, and with a place behind them the rest of (number * 1,000,003 + place + 1) by 2,147,483,647. */
bool kombazily_choices_move(struct choices *choices, size_t place, uint32_t *kind, uint32_t *rank, uint32_t *op,
                            uint32_t *at);
/* Whether nobody goes on unless a send is buffered; whether the move at this place says no where the same look may say
 * yes, or tells of one where it may tell of all. */
bool kombazily_choices_only_buffers(struct choices *choices);
bool kombazily_choices_is_early(struct choices *choices, size_t place);

/* ---- the search ---- */

/* Tells the search the moves at the fence: CHOICES_MAKE and the place of the one that is made; CHOICES_ENDED where
 * there are none; CHOICES_ASLEEP, what comes of them comes of other runs; CHOICES_ASTRAY, others were there before, on
 * the same way; CHOICES_OUT_OF_TURN; 13 (a rank makes too many choices), 14, 81. Of the moves beside the one that is
 * made those sleep on that don't clash with it; none, without `sleeps`. */
uint32_t kombazily_choices_choose(struct choices *choices, bool sleeps, uint64_t *chosen);
/* Begins the next run: whether there is one. One that wasn't told to be at its end is cut off. */
bool kombazily_choices_next_run(struct choices *choices);
/* Whether there is no further run, none was cut off, and none went astray. */
bool kombazily_choices_tried_all(struct choices *choices);

#endif
