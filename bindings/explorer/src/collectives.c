/* Collectives of ranks: see state.h. */
#include "state.h"

#include <string.h>

bool is_collective(uint32_t kind) { return kind >= ENGINE_BARRIER && kind <= ENGINE_SPLIT; }

/* Whether no member leaves it before all have entered it. */
static bool meets_all(uint32_t kind) {
    return kind == ENGINE_BARRIER || kind == ENGINE_ALLREDUCE || kind == ENGINE_DUP || kind == ENGINE_SPLIT;
}

bool are_all_there(struct steps *s, int rank) {
    const struct rank *own = &s->ranks[rank];
    const struct members *of = members_of(s, rank, own->ask.call.communicator);
    for (int i = 0; of != NULL && i < of->size; i++)
        if (entered_by(&s->ranks[of->of[i]], of->name) < own->entry) return false;
    return true;
}

/* A communicator that the collective made: its name is that of the old one, which collective it was, and a member. */
static void learn_made(struct steps *s, int rank, uint32_t made) {
    struct rank *own = &s->ranks[rank];
    const struct members *parent = members_of(s, rank, own->ask.call.communicator);
    uint64_t name = mixed(parent == NULL ? 7 : parent->name, own->entry);
    learn_members(s, rank, made, 0);
    own->members[made].name = mixed(name, own->members[made].of[0]);
    own->members[made].made_at = own->place;
}

/* Whether the rank hands data to others in a collective of a root, or else gets some. */
static bool gives(const struct members *of, const struct engine_call *call) {
    bool is_from_root = call->kind == ENGINE_BCAST || call->kind == ENGINE_SCATTER;
    return is_from_root == (call->peer == of->rank);
}

/* What is known by the entering of a collective to those who leave it. */
static void log_entry(struct steps *s, int rank, const struct members *of) {
    const struct rank *own = &s->ranks[rank];
    if (meets_all(own->ask.call.kind)) log_event(s, rank, EVENT_ENTER, own->entry, of->name);
    else if (gives(of, &own->ask.call)) log_event(s, rank, EVENT_GIVE, own->entry, of->name);
}

static void log_leaving(struct steps *s, int rank, const struct members *of) {
    const struct rank *own = &s->ranks[rank];
    if (meets_all(own->ask.call.kind)) log_event(s, rank, EVENT_LEAVE, own->entry, of->name);
    else if (!gives(of, &own->ask.call)) log_event(s, rank, EVENT_TAKE, own->entry, of->name);
}

void finish_collective(struct steps *s, int rank, const struct engine_answer *answer) {
    struct rank *own = &s->ranks[rank];
    const uint32_t kind = own->ask.call.kind;
    const struct members *of = members_of(s, rank, own->ask.call.communicator);
    own->is_in_engine = false;
    if (of != NULL && is_collective(kind)) log_leaving(s, rank, of);
    give(s, rank, answer); /* its data are taken before the engine is asked anything else */
    bool makes = kind == ENGINE_DUP || kind == ENGINE_SPLIT;
    if (makes && answer->kind == ENGINE_LEFT && answer->number == 0 && answer->communicator != ENGINE_NO_COMMUNICATOR)
        learn_made(s, rank, answer->communicator);
}

void enter_collective(struct steps *s, int rank) {
    struct rank *own = &s->ranks[rank];
    struct engine_answer answer;
    own->is_held = false;
    call_rank(s, rank, &own->ask.call, own->bytes, own->ask.length, &answer);
    if (answer.kind == ENGINE_BLOCKED) own->is_in_engine = true;
    else finish_collective(s, rank, &answer);
}

/* Whether the rank is the root of a collective that it leaves at once. */
static bool leaves_at_once(struct steps *s, int rank) {
    const struct engine_call *call = &s->ranks[rank].ask.call;
    const struct members *of = members_of(s, rank, call->communicator);
    return of != NULL && (call->kind == ENGINE_BCAST || call->kind == ENGINE_SCATTER) && call->peer == of->rank;
}

/* ---- entering ---- */

static size_t size_of_basic(uint32_t basic) {
    static const uint8_t sizes[] = {1, 1, 2, 4, 8, 1, 2, 4, 8, 1, 4, 8};
    return basic < sizeof sizes ? sizes[basic] : 1;
}

/* What has to be the same at all members; of the rest nothing. */
static struct entering entering_of(const struct rank *own) {
    const struct engine_call *call = &own->ask.call;
    struct entering it = {.kind = call->kind, .root = EXPLORER_NO_ROOT, .place = own->place};
    const bool has_root = call->kind >= ENGINE_BCAST && call->kind <= ENGINE_REDUCE;
    const bool is_counted = call->kind == ENGINE_SCATTER || (call->kind == ENGINE_BCAST && !call->has_data);
    if (has_root) it.root = call->peer;
    if (!has_root && call->kind != ENGINE_ALLREDUCE) return it;
    it.row.basic = call->basic;
    it.row.bytes = is_counted ? call->count * size_of_basic(call->basic) : own->ask.length;
    if (call->kind == ENGINE_REDUCE || call->kind == ENGINE_ALLREDUCE) it.operation = call->operation;
    return it;
}

void begin_collective(struct steps *s, int rank) {
    struct rank *own = &s->ranks[rank];
    struct members *of = members_of(s, rank, own->ask.call.communicator);
    own->state = RANK_BLOCKED;
    own->entry = of == NULL ? 0 : enter_meeting(s, rank, of, entering_of(own));
    if (of != NULL) log_entry(s, rank, of);
    bool is_open = own->late_count > 0 && !leaves_at_once(s, rank);
    if (s->options.synchronous || is_open || has_copies(own, 0, true)) own->is_held = true;
    else enter_collective(s, rank);
}
