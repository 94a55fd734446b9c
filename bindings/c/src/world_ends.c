/* The ends of worlds that were left (worlds.h). A member that has left one may be asked again for an acknowledgement
 * that was lost, as long as another one waits for it. So each says to the first member when all that it sent there is
 * acknowledged; once all have said so that one tells them, and the engines go. These messages go by the first world's
 * engine of plans, which stays until the end. */
#include "internal.h"
#include "worlds.h"

#include <stdlib.h>

/* Tags of messages that are of no communicator's plans: kind 0 of MPI_COMM_WORLD (plan_runs.c). */
enum { TAG_LEFT = 1, TAG_GONE };

/* Those that were left in which something that was sent may not be acknowledged yet, or which all have left. How many
 * were left and haven't ended: the others of them wait for a word. Whether none ends any more. */
static struct world *left;
static size_t left_count;
static bool is_stopped;

/* ---- messages: a world's number each ---- */

static void tell(int rank, int tag, uint64_t number) {
    struct engine_call call = {
        .kind = ENGINE_ISEND, .communicator = ENGINE_WORLD, .peer = rank, .tag = tag, .basic = ENGINE_BYTE};
    struct engine_answer answer;
    ask_plans(&call, &number, sizeof number, &answer);
    call = (struct engine_call){.kind = ENGINE_TEST, .request = answer.request};
    if (answer.kind == ENGINE_STARTED) ask_plans(&call, NULL, 0, &answer);
}

/* Whether one has come; and takes it. */
static bool hear(int tag, uint64_t *number) {
    struct engine_call call = {
        .kind = ENGINE_IPROBE, .communicator = ENGINE_WORLD, .peer = ENGINE_ANY, .tag = tag, .basic = ENGINE_BYTE};
    struct engine_answer answer;
    ask_plans(&call, NULL, 0, &answer);
    if (answer.kind != ENGINE_PROBED) return false;
    call.kind = ENGINE_IRECV;
    call.count = sizeof *number;
    ask_plans(&call, NULL, 0, &answer);
    if (answer.kind != ENGINE_STARTED) return false;
    call = (struct engine_call){.kind = ENGINE_TEST, .request = answer.request};
    ask_plans(&call, NULL, 0, &answer);
    return answer.outcome == ENGINE_RECEIVED && take_from_plans((uint8_t *)number, sizeof *number) == sizeof *number;
}

/* ---- ends ---- */

static void end_left(struct world *world) {
    left_count--;
    end_world(world);
}

static void look_at(struct world *world) {
    world->next_left = left;
    left = world;
}

/* How many have left a world that isn't there yet: they may have had it, and left it, before its first member heard
 * of it, who then has to know. */
struct early {
    uint64_t number;
    int have_left;
    struct early *next;
};
static struct early *early;

static void note_left(uint64_t number) {
    struct world *world = world_numbered(number);
    struct early *it = early;
    while (it != NULL && it->number != number) it = it->next;
    if (world == NULL && it == NULL && (it = calloc(1, sizeof *it)) != NULL) {
        *it = (struct early){number, 0, early};
        early = it;
    }
    if (world == NULL) {
        if (it != NULL) it->have_left++;
        return;
    }
    world->have_left++;
    if (!world->awaits_word || world->have_left < world->size - 1) return;
    world->awaits_word = false;
    look_at(world);
}

int take_early(uint64_t number) {
    struct early **at = &early;
    while (*at != NULL && (*at)->number != number) at = &(*at)->next;
    struct early *it = *at;
    const int found = it == NULL ? 0 : it->have_left;
    if (it != NULL) *at = it->next;
    free(it);
    return found;
}

void forget_early(void) {
    while (early != NULL) (void)take_early(early->number);
}

static void hear_all(void) {
    uint64_t number;
    struct world *it;
    while (hear(TAG_LEFT, &number)) note_left(number);
    while (hear(TAG_GONE, &number))
        if ((it = world_numbered(number)) != NULL && it->awaits_word) end_left(it);
}

/* Whether all that was sent in it is acknowledged. */
static bool is_quiet(struct world *world) {
    for (int kind = 0; kind < ENGINES; kind++)
        if (!kombazily_is_idle(&world->engines[kind].rank)) return false;
    return true;
}

/* One that is quiet. */
static void go_on(struct world *world) {
    if (world->rank == 0 && world->have_left == world->size - 1) {
        for (int rank = 1; rank < world->size; rank++) tell(first_rank(world, rank), TAG_GONE, world->number);
        end_left(world);
        return;
    }
    world->awaits_word = true;
    if (world->rank != 0) tell(first_rank(world, 0), TAG_LEFT, world->number);
}

void worlds_go_on(void) {
    if (left_count == 0 || is_stopped) return;
    hear_all();
    for (struct world **at = &left; *at != NULL;) {
        struct world *it = *at;
        if (!is_quiet(it)) {
            at = &it->next_left;
            continue;
        }
        *at = it->next_left;
        go_on(it);
    }
}

void stop_worlds(void) { is_stopped = true; }

void release_world(struct world *world) {
    if (--world->uses > 0 || world == &first_world) return;
    left_count++;
    look_at(world);
    worlds_go_on();
}
