/* What C calls to carry collectives out: plans, and folds. Both are functions of their arguments alone; what they
 * answer is decided and proved in Rattle (the crates collective_plans, plan_rows, reductions and c_folds). */
#ifndef KOMBAZILY_ENGINE_PLANS_H
#define KOMBAZILY_ENGINE_PLANS_H

#include <stddef.h>
#include <stdint.h>

/* Collectives that go by plans. */
enum plan_kind {
    PLAN_ALLTOALL = 1,
    PLAN_ALLGATHER,
    PLAN_REDUCE_SCATTER,
    PLAN_SCAN,
    PLAN_EXSCAN,
    PLAN_GATHER,
    PLAN_SCATTER,
    PLAN_BROADCAST,
    PLAN_REDUCE,
    PLAN_ALLREDUCE,
    PLAN_BARRIER
};

/* Which plan is asked for. The root counts in GATHER, SCATTER, BROADCAST and REDUCE, and is a rank in the others. */
struct plan_asked {
    uint32_t kind; /* a plan_kind */
    uint32_t size; /* how many members there are: 65,536 at most */
    uint32_t rank;
    uint32_t root;
    uint32_t regroups; /* 1 where the operation of a reduction is associative on the elements (kombazily_regroups) */
    uint64_t bytes;    /* of each block of all members, where all have as many and know so; else UINT64_MAX */
};

/* A block that a step names: a place among those that the member hands in, those of its result, or those of the room
 * that the plan needs. Where it lies is C's matter. */
enum plan_slot_kind { SLOT_NONE, SLOT_GIVEN, SLOT_GOT, SLOT_KEPT };
struct plan_slot {
    uint32_t kind; /* a plan_slot_kind */
    uint32_t place;
};

/* A step. Behind each: the fields that it has. */
enum plan_step_kind {
    STEP_COPY = 1, /* from, into */
    STEP_SEND,     /* peer, from */
    STEP_RECEIVE,  /* peer, into */
    STEP_FOLD      /* from (of lower ranks), high, into */
};
struct plan_step {
    uint32_t kind;   /* a plan_step_kind */
    uint32_t peer;   /* a rank in the communicator */
    uint32_t joined; /* 1: the block of the next step, which has the same kind and peer, is in the same message */
    struct plan_slot from, high, into;
};

/* Puts the steps of a plan into the row, where there is room for all of them, and how many they are into `count`: 0, or
 * 83 (no such kind), 5 (rank), 7 (root), 14; then nothing is put. */
uint32_t kombazily_plan(const struct plan_asked *asked, struct plan_step *steps, size_t room, uint64_t *count);

/* Makes of each element of `high` what the operation makes of the one of `low` at the same place and of it, in this
 * order: what a reduction makes of two members' elements, of which the first has the lower rank. Both are whole
 * elements of the basic type, in the machine's byte order, and equally many. 0, or 2 (basic), 9 (no such operation, or
 * it isn't defined on the type), 1 (lengths), 14, in this order; then `high` is as it was. */
uint32_t kombazily_fold(uint32_t operation, uint32_t basic, const uint8_t *low, size_t low_length, uint8_t *high,
                        size_t high_length);

/* Whether an operation is associative on elements of a basic type: 1, or 0, also where there is no such operation or
 * type. */
uint32_t kombazily_regroups(uint32_t operation, uint32_t basic);

#endif
