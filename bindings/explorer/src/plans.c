/* Collectives that go by sends and receives, which have engines of their own: see state.h. */
#include "state.h"

#include <stdlib.h>
#include <string.h>

/* Behind the tag of a rank: 19 bits (plan_runs.c of bindings/c). */
enum { NAME_SHIFT = 19, MOST_NAMES = 1 << (31 - NAME_SHIFT) };

/* The place of a communicator's name among those that have plans. */
static int32_t number_of(struct steps *s, uint64_t name) {
    int at = 0;
    while (at < s->plan_name_count && s->plan_names[at] != name) at++;
    if (at < s->plan_name_count) return at;
    if (at == MOST_NAMES) give_up("4,096 communicators with collectives, and more");
    s->plan_names = room_for(s->plan_names, (size_t)at + 1, sizeof *s->plan_names);
    s->plan_names[s->plan_name_count++] = name;
    return at;
}

struct engine_call plan_message(struct steps *s, int rank, const struct engine_call *call) {
    struct engine_call made = *call;
    const struct members *of = members_of(s, rank, call->communicator);
    if (s->plan_engines == NULL) s->plan_engines = engines_new(s->options.size);
    made.communicator = ENGINE_WORLD;
    made.peer = world_rank(s, rank, call->communicator, call->peer);
    made.tag |= number_of(s, of == NULL ? 0 : of->name) << NAME_SHIFT;
    return made;
}

void begin_plan(struct steps *s, int rank) {
    struct rank *own = &s->ranks[rank];
    const struct explorer_ask *ask = &own->ask;
    struct members *of = members_of(s, rank, ask->call.communicator);
    const uint32_t blocks = (uint32_t)(ask->length / sizeof(struct explorer_block));
    while (own->plan_count < (int)ask->plan) {
        own->plans = room_for(own->plans, (size_t)own->plan_count + 1, sizeof *own->plans);
        own->plans[own->plan_count++] = (struct plan){.entry = 0};
    }
    if (of == NULL || ask->plan == 0 || ask->call.count > blocks) return;
    struct entering entering = {.kind = ENTERS_PLAN + ask->call.kind,
                                .root = ask->call.peer,
                                .operation = ask->call.operation,
                                .persistent = (uint32_t)ask->call.tag,
                                .given = (uint32_t)ask->call.count,
                                .got = blocks - (uint32_t)ask->call.count,
                                .blocks = room_for(NULL, blocks, sizeof(struct explorer_block)),
                                .place = own->place};
    if (blocks > 0) memcpy(entering.blocks, own->bytes, blocks * sizeof(struct explorer_block));
    own->plans[ask->plan - 1] = (struct plan){
        .communicator = ask->call.communicator,
        .name = entering.persistent == 0 ? of->name : series_name(of, entering.persistent),
        .waits = ask->is_waiting,
        .place = own->place,
    };
    own->plans[ask->plan - 1].entry = enter_meeting(s, rank, of, entering);
}

bool has_met(struct steps *s, int rank, uint64_t number) {
    const struct plan *plan = plan_of(&s->ranks[rank], number);
    const struct members *of = plan == NULL ? NULL : members_of(s, rank, plan->communicator);
    if (of == NULL || !plan->waits) return true;
    for (int i = 0; i < of->size; i++)
        if (entered_by(&s->ranks[of->of[i]], plan->name) < plan->entry) return false;
    return true;
}

const struct plan *plan_of(const struct rank *own, uint64_t number) {
    return number == 0 || number > (uint64_t)own->plan_count ? NULL : &own->plans[number - 1];
}
