/* Ranks of other hosts that were sent something and from which nothing has ever come: a firewall may be between. Pure
 * functions of what a rank has noted. A rank on the same machine isn't told of: what it computes may take long. */
#ifndef KOMBAZILY_SILENCE_H
#define KOMBAZILY_SILENCE_H

#include "addresses.h"

enum { LONG_SILENCE = 5000 /* milliseconds behind which it is told */ };

struct silence {
    uint64_t sent[MOST_RANKS]; /* when something was sent to this rank first, in nanoseconds; 0: nothing was */
    bool has_come[MOST_RANKS]; /* whether anything came from it */
};

/* Something is sent to a rank now; something has come from it. Numbers of no rank are passed over. */
void note_sent(struct silence *known, int rank, uint64_t now);
void note_came(struct silence *known, int rank);

/* The lowest rank at another address than `own`'s that was sent something LONG_SILENCE ago, and from which nothing
 * came; -1 where there is none. `begun` is when the wait of `own` began: what it computed before isn't silence. */
int first_silent(const struct silence *known, const struct addresses *job, int own, uint64_t begun, uint64_t now);

#endif
