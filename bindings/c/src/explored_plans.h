/* Collectives that go by sends and receives, under an explorer (explored.h). */
#ifndef KOMBAZILY_EXPLORED_PLANS_H
#define KOMBAZILY_EXPLORED_PLANS_H

#include "plan_runs.h"

/* Tells the explorer that a collective begins: the number by which it knows it. */
uint32_t tell_plan(const struct plan_call *call);

/* Has the collective go straight from each member that hands a block in to each that is to have it, so that none waits
 * for one that waits for something else: false where there is no memory. Where the engine's own plan goes so, it stays.
 */
bool go_straight(struct plan_call *call);

/* Whether some member may leave it before all have entered it (MPI 3.1, 5.1). */
bool can_be_left(enum plan_kind kind);

/* The requests of copies that don't wait, and the number by which the explorer knows one (later_copies.c). */
extern const struct request_kind explored_copy_kind;
uint32_t copy_told(const struct request *request);

#endif
