/* Whether all ranks entered the same collectives: see agreement.h. */
#include "agreement.h"

#include "errors.h"
#include "internal.h"
#include "rows.h"

#include <stdlib.h>

/* A sum of all that was entered so far, in order: by FNV-1a, so that others in another order have another one. */
static uint64_t entered = UINT64_C(0xcbf29ce484222325);

/* A sum of the persistent ones that were begun: the same in each order. */
static uint64_t begun;

/* Whether this rank was told of a collective that failed. */
static bool is_told;

/* At rank 0: the first rank that has entered others than it; 0: there is none. */
static int other_rank;

static void note(uint64_t number) {
    for (int shift = 0; shift < 64; shift += 8) {
        entered ^= number >> shift & 255;
        entered *= UINT64_C(0x100000001b3);
    }
}

void note_entry(const struct engine_call *entry) {
    if (entry->communicator != ENGINE_WORLD) return;
    /* The fields that are the same at all members; a call that doesn't read one has 0 there. */
    note(entry->kind);
    note((uint32_t)entry->peer);
    note(entry->basic);
    note(entry->operation);
    note(entry->count);
}

void note_plan(enum plan_kind kind, int root, const struct communicator *comm) {
    enum { BEHIND_CALLS = 1000 /* more than any call of the engine has */ };
    if (comm->place != ENGINE_WORLD) return;
    note(BEHIND_CALLS + kind);
    note((uint32_t)root);
}

void note_again(uint32_t number, const struct communicator *comm) {
    if (comm->place != ENGINE_WORLD) return;
    begun += (number + UINT64_C(1)) * UINT64_C(0x9e3779b97f4a7c15);
}

void note_told(uint32_t place) { is_told |= place == ENGINE_WORLD; }

/* Whether all ranks have the same sum: the greatest one is the least; or some rank was told why not. Or a number of the
 * engine. */
static uint32_t is_same_at_all(uint64_t own, bool *is_same) {
    const uint64_t all[] = {own, ~own, is_told};
    uint64_t most[] = {own, ~own, is_told};
    const struct engine_call ask = {.kind = ENGINE_ALLREDUCE,
                                    .communicator = ENGINE_WORLD,
                                    .basic = ENGINE_UINT64,
                                    .operation = ENGINE_MAX,
                                    .count = sizeof all / sizeof *all};
    struct engine_answer answer;
    uint32_t number = enter_engine(&ask, all, sizeof all, &answer);
    if (number == 0) take_from_engine(0, (uint8_t *)most, sizeof most);
    *is_same = most[2] != 0 || (most[0] == own && most[1] == ~own);
    return number;
}

/* At rank 0: the first rank whose sum is another one. */
static void find_other(uint64_t own) {
    const struct engine_call ask = {
        .kind = ENGINE_GATHER, .communicator = ENGINE_WORLD, .basic = ENGINE_UINT64, .count = 1};
    struct engine_answer answer;
    uint64_t sum = own;
    if (enter_engine(&ask, &own, sizeof own, &answer) != 0 || process.rank != 0) return;
    while (sum == own && ++other_rank < process.size)
        take_from_engine((uint64_t)other_rank, (uint8_t *)&sum, sizeof sum);
}

int compare_entries(const char *call) {
    note(begun);
    const uint64_t own = entered;
    bool is_same;
    uint32_t number = is_same_at_all(own, &is_same);
    if (number == NUMBER_MISMATCH) return raise_number(MPI_COMM_WORLD, call, number);
    if (number == 0 && !is_same) find_other(own);
    return MPI_SUCCESS;
}

int tell_disagreement(const char *call) {
    if (other_rank == 0) return MPI_SUCCESS;
    return raise_on(MPI_COMM_WORLD, call, MPI_ERR_NOT_SAME,
                    "rank %d entered other collectives of MPI_COMM_WORLD: of another kind, root, operation, type or "
                    "count, or in another order (%d)",
                    other_rank, NUMBER_MISMATCH);
}
