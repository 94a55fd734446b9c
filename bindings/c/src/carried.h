/* The engines in which something goes on: lists of them, in each of which an engine stands once at most. To come in, to
 * leave and to go to the end take the same time however many there are. */
#ifndef KOMBAZILY_CARRIED_H
#define KOMBAZILY_CARRIED_H

#include "engine.h"

#include <stdbool.h>
#include <stddef.h>
#include <stdint.h>

struct world;

enum carried_list {
    OUTGOING,   /* something may be to go out */
    KEEPING,    /* an acknowledgement is kept back: in the order in which that was begun, and so of when it is to go */
    UNANSWERED, /* what went isn't acknowledged: the first one is the one that was told the time longest ago */
    CARRIED_LISTS
};

struct carried;

/* Where an engine stands in a list. */
struct carried_place {
    struct carried *next, *former;
    bool is_in;
};

/* An engine, and what progress knows of it. Times are in nanoseconds. */
struct carried {
    struct engine_rank rank;
    const struct world *world; /* NULL: it isn't there */
    uint64_t told;             /* the time that it was told last */
    uint64_t kept_until;       /* when an acknowledgement goes that it keeps back; 0: it keeps none */
    struct carried_place in[CARRIED_LISTS];
};

/* The first one, or NULL, and the one behind another; how many there are. */
struct carried *first_of(enum carried_list list);
struct carried *next_in(enum carried_list list, const struct carried *own);
size_t count_of(enum carried_list list);
/* Puts one at the end, unless it is there; takes one out, if it is there; makes the first one the last. */
void put_into(enum carried_list list, struct carried *own);
void take_out_of(enum carried_list list, struct carried *own);
void turn_list(enum carried_list list);

#endif
