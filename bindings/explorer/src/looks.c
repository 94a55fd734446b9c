/* Tests, waits for one of a list, and probes: see state.h. */
#include "state.h"

#include <string.h>

bool is_list(uint32_t kind) { return kind >= ASK_WAITANY && kind <= ASK_TESTSOME; }

enum finding_kind kind_of_wait(const struct rank *own) {
    return kombazily_finding_of_wait(own->state == RANK_BLOCKED, own->is_finalized, own->ask.kind,
                                     own->ask.is_waiting != 0);
}

bool is_look(const struct rank *own) { return kind_of_wait(own) == ASKS_FOR_EVER; }

/* Whether a request that is at its end is a send that nobody had to receive for it: then a look says yes at once. */
static bool is_plain(struct steps *s, int rank, const struct explorer_entry *entry) {
    const struct operation *it = entry->key >= EXPLORER_MADE ? NULL : operation_of(s, rank, entry->key);
    if (entry->key == EXPLORER_MADE) return false;
    if (it == NULL || it->state == OP_CANCELLED) return true;
    return it->is_send && (it->state == OP_BUFFERED || !it->waits);
}

/* A test whose yes nobody else is needed for. */
static bool is_sure_yes(struct steps *s, int rank) {
    const struct rank *own = &s->ranks[rank];
    for (uint32_t i = 0; i < own->ask.count; i++) {
        const struct explorer_entry *entry = &own->entries[i];
        if (entry->key == EXPLORER_NULL) continue;
        if (!is_entry_done(s, rank, entry) || !is_plain(s, rank, entry)) return false;
    }
    return true;
}

/* The only request of a list that isn't null, if it is the only one; else -1. */
static int only_entry(const struct rank *own) {
    int only = -1, live = 0;
    for (uint32_t i = 0; i < own->ask.count; i++)
        if (own->entries[i].key != EXPLORER_NULL) live++, only = (int)i;
    return live == 1 ? only : -1;
}

static bool has_open_entry(const struct rank *own) {
    for (uint32_t i = 0; i < own->ask.count; i++)
        if (own->entries[i].key == EXPLORER_OPEN) return true;
    return false;
}

bool answer_sure_look(struct steps *s, int rank) {
    struct rank *own = &s->ranks[rank];
    if (!is_list(own->ask.kind)) return false;
    if (has_open_entry(own) && has_moved_on(s, rank)) {
        own->ops--, own->asks--; /* it is the same look that is asked again */
        give_fact(s, rank, EXPLORER_AGAIN);
        return true;
    }
    if (own->ask.kind == ASK_TEST && is_sure_yes(s, rank)) {
        own->noes = 0;
        give_fact(s, rank, 1);
        return true;
    }
    int only = own->ask.kind == ASK_WAITANY ? only_entry(own) : -1;
    if (only < 0 || !is_entry_done(s, rank, &own->entries[only])) return false;
    give_fact(s, rank, 1);
    own->answer.place = (uint32_t)only;
    return true;
}

/* ---- probes ---- */

const struct pin *pin_for(const struct rank *own, const struct engine_call *call, bool is_whole) {
    for (int i = 0; i < own->pin_count; i++) {
        const struct pin *it = &own->pins[i];
        if (it->communicator != call->communicator || !do_tags_meet(call->tag, it->tag)) continue;
        if (call->peer != ENGINE_ANY && call->peer != it->source) continue;
        /* What asks for no more than the probe did finds what the probe found. */
        bool is_part = (it->pattern == ENGINE_ANY || it->pattern == call->tag) &&
                       (it->asked == ENGINE_ANY || it->asked == call->peer);
        if (!is_whole || is_part) return it;
    }
    return NULL;
}

void drop_pin(struct rank *own, const struct engine_call *call, int32_t source) {
    for (int i = 0; i < own->pin_count; i++) {
        struct pin *it = &own->pins[i];
        if (it->communicator != call->communicator || it->source != source || !do_tags_meet(call->tag, it->tag))
            continue;
        *it = own->pins[--own->pin_count];
        return;
    }
}

static struct engine_call probe_of(const struct engine_call *call, enum engine_call_kind kind, int32_t source) {
    return (struct engine_call){.kind = kind, .communicator = call->communicator, .peer = source, .tag = call->tag};
}

bool may_see(struct steps *s, int rank, int32_t source) {
    const struct rank *own = &s->ranks[rank];
    const struct engine_answer found = found_by(s, rank, &own->ask.call, source);
    return found.kind == ENGINE_PROBED && !is_wanted(s, rank, &found, own->ask.call.communicator);
}

/* Notes which message a probe found: from now on it finds it again, or it is taken out. */
static void note_found(struct steps *s, int rank, const struct engine_answer *found) {
    struct rank *own = &s->ranks[rank];
    const struct engine_call *call = &own->ask.call;
    bool is_look = found->kind == ENGINE_PROBED;
    log_taking(s, rank, own->ask_at, call, found->source, is_look, &own->place);
    log_event(s, rank, EVENT_END, own->ask_at, 0);
    if (!is_look) {
        struct engine_call took = *call;
        took.tag = found->tag;
        drop_pin(own, &took, found->source);
    } else if (pin_for(own, call, true) == NULL) {
        own->pins = room_for(own->pins, (size_t)own->pin_count + 1, sizeof *own->pins);
        own->pins[own->pin_count++] =
            (struct pin){call->communicator, call->peer, call->tag, found->source, found->tag};
    }
}

void give_probe(struct steps *s, int rank, int32_t source) {
    struct rank *own = &s->ranks[rank];
    const struct engine_call call = probe_of(&own->ask.call, own->ask.call.kind, source);
    struct engine_answer found;
    call_rank(s, rank, &call, NULL, 0, &found);
    own->noes = 0;
    bool is_found = found.kind == ENGINE_PROBED || found.kind == ENGINE_MATCHED;
    if (is_found && found.source >= 0) note_found(s, rank, &found);
    give(s, rank, &found);
}

bool answer_sure_probe(struct steps *s, int rank) {
    struct rank *own = &s->ranks[rank];
    const struct engine_call *call = &own->ask.call;
    if (call->peer == ENGINE_NULL) {
        give_probe(s, rank, ENGINE_NULL);
        return true;
    }
    const struct pin *pin = pin_for(own, call, true);
    if (pin != NULL && may_see(s, rank, pin->source)) {
        give_probe(s, rank, pin->source);
        return true;
    }
    if (!own->ask.is_waiting || call->peer == ENGINE_ANY || !may_see(s, rank, call->peer)) return false;
    give_probe(s, rank, call->peer);
    return true;
}
