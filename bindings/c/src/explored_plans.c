/* Collectives that go by sends and receives, under an explorer: see explored_plans.h. A rank that waits for something
 * else is blocked in the explorer, and its collectives don't go on meanwhile. So those that don't wait hand nothing on:
 * all is sent when they begin, and what came is folded by who wants it, in the order of the ranks. So it is of those
 * that wait and that a member may leave early. */
#include "explored_plans.h"

#include "explored.h"

#include <stdlib.h>

/* ---- what is told ---- */

static bool has_root(enum plan_kind kind) {
    return kind == PLAN_GATHER || kind == PLAN_SCATTER || kind == PLAN_BROADCAST || kind == PLAN_REDUCE;
}

static uint32_t operation_told(const struct operation *operation) {
    if (operation == NULL) return 0;
    return operation->function != NULL ? EXPLORER_OWN_OPERATION : (uint32_t)operation->number;
}

static size_t put_blocks(const struct places *places, struct explorer_block *into) {
    for (size_t at = 0; at < places->count; at++) {
        const struct place it = places->list[at];
        into[at] = (struct explorer_block){place_length(it), it.type == NULL ? 0 : it.type->basic};
    }
    return places->count;
}

uint32_t tell_plan(const struct plan_call *call) {
    struct explorer_block *blocks = calloc(call->given.count + call->got.count + 1, sizeof *blocks);
    if (blocks == NULL) explored_lose();
    const struct engine_call entry = {.kind = call->kind,
                                      .communicator = call->comm->place,
                                      .peer = has_root(call->kind) ? call->root : EXPLORER_NO_ROOT,
                                      .tag = (int32_t)call->persistent,
                                      .operation = operation_told(call->folding.operation),
                                      .count = call->given.count};
    size_t count = put_blocks(&call->given, blocks);
    count += put_blocks(&call->got, blocks + count);
    uint32_t plan = explored_enter(call->name, &entry, call->waits, blocks, count);
    free(blocks);
    return plan;
}

/* ---- straight steps ---- */

static struct plan_slot kept(int rank) { return (struct plan_slot){SLOT_KEPT, (uint32_t)rank}; }
static const struct plan_slot given = {SLOT_GIVEN, 0}, got = {SLOT_GOT, 0};

static void put(struct plan_call *call, struct plan_step step) { call->steps[call->step_count++] = step; }

static void put_sends(struct plan_call *call, int from, int to) {
    for (int rank = from; rank < to; rank++)
        if (rank != call->comm->rank)
            put(call, (struct plan_step){.kind = STEP_SEND, .peer = (uint32_t)rank, .from = given});
}

/* Receives the blocks of the members before this one into the room, each in its place. */
static void put_receives(struct plan_call *call, int end) {
    for (int rank = 0; rank < end; rank++)
        if (rank != call->comm->rank)
            put(call, (struct plan_step){.kind = STEP_RECEIVE, .peer = (uint32_t)rank, .into = kept(rank)});
}

/* The left fold of the blocks of the members before this one becomes the result. */
static void put_folds(struct plan_call *call, int end) {
    const int own = call->comm->rank;
    struct plan_slot low = own == 0 ? given : kept(0);
    for (int rank = 1; rank < end; rank++) {
        const struct plan_slot high = rank == own ? given : kept(rank);
        put(call, (struct plan_step){.kind = STEP_FOLD, .from = low, .high = high, .into = kept(rank)});
        low = kept(rank);
    }
    if (end > 0) put(call, (struct plan_step){.kind = STEP_COPY, .from = low, .into = got});
}

static void put_reduction(struct plan_call *call, int end) {
    put_receives(call, end);
    put_folds(call, end);
}

static void put_broadcast(struct plan_call *call) {
    const int size = call->comm->size;
    if (call->comm->rank == call->root) put_sends(call, 0, size);
    else put(call, (struct plan_step){.kind = STEP_RECEIVE, .peer = (uint32_t)call->root, .into = got});
}

static void put_reduce(struct plan_call *call) {
    if (call->comm->rank == call->root) put_reduction(call, call->comm->size);
    else put_sends(call, call->root, call->root + 1);
}

static void put_steps(struct plan_call *call) {
    const int size = call->comm->size, own = call->comm->rank;
    switch (call->kind) {
    case PLAN_BROADCAST:
        put_broadcast(call);
        return;
    case PLAN_REDUCE:
        put_reduce(call);
        return;
    case PLAN_ALLREDUCE:
        put_sends(call, 0, size);
        put_reduction(call, size);
        return;
    case PLAN_BARRIER:
        put_sends(call, 0, size);
        put_receives(call, size);
        return;
    case PLAN_SCAN:
        put_sends(call, own + 1, size);
        put_reduction(call, own + 1);
        return;
    default: /* PLAN_EXSCAN */
        put_sends(call, own + 1, size);
        put_reduction(call, own);
    }
}

/* Whether the engine's plan goes straight, where members don't know that their blocks have as many bytes. */
static bool is_straight(enum plan_kind kind) {
    return kind == PLAN_ALLTOALL || kind == PLAN_ALLGATHER || kind == PLAN_REDUCE_SCATTER || kind == PLAN_GATHER ||
           kind == PLAN_SCATTER;
}

bool can_be_left(enum plan_kind kind) { return has_root(kind) || kind == PLAN_SCAN || kind == PLAN_EXSCAN; }

bool go_straight(struct plan_call *call) {
    call->are_alike = false;
    if (call->steps != NULL || call->comm->size == 1 || is_straight(call->kind)) return true;
    call->steps = calloc(3 * (size_t)call->comm->size, sizeof *call->steps);
    if (call->steps != NULL) put_steps(call);
    return call->steps != NULL;
}
