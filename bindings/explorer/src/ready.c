/* Ready sends: one may be started only where its receive is posted (MPI 3.1, 3.4). It is wrong unless its rank knows
 * that: else there is an order of what is legal in which the send comes first. See state.h. */
#include "state.h"

enum { NO_EVENT = -1 };

/* The place among all events of what happened to this thing at this rank, or NO_EVENT. */
static long event_of(const struct steps *s, enum event_kind kind, int rank, uint32_t id) {
    for (size_t at = 0; at < s->event_count; at++) {
        const struct event *e = &s->events[at];
        if (e->kind == kind && e->rank == rank && e->id == id) return (long)at;
    }
    return NO_EVENT;
}

/* The receive that took a message, or NULL. */
static const struct taking *receive_of(const struct steps *s, int message) {
    const struct rank *own = &s->ranks[s->sent[message].target];
    for (int k = 0; k < own->taking_count; k++)
        if (own->takings[k].message == message && !own->takings[k].is_look) return &own->takings[k];
    return NULL;
}

/* Whether its rank knew, when it sent the message, that the receive was posted. */
static bool is_posted_before(const struct steps *s, int message, const struct taking *receive) {
    const struct sent *it = &s->sent[message];
    const long posted = event_of(s, EVENT_POST, it->target, receive->at);
    const long sent = event_of(s, EVENT_SEND, it->source, (uint32_t)message);
    return posted != NO_EVENT && posted < sent && is_known_before(s, (size_t)posted, (size_t)sent, it->source);
}

/* Whether the same was told of calls at the same places. */
static bool is_told(const struct steps *s, const struct sent *it, const struct taking *receive) {
    for (int i = 0; i < s->finding_count; i++) {
        const struct finding *told = &s->findings[i];
        if (told->kind != READY_EARLY || told->rank != it->source || !is_same_place(&told->places[0], &it->place))
            continue;
        if (told->place_count == 1 ? receive == NULL
                                   : receive != NULL && is_same_place(&told->places[1], &receive->place))
            return true;
    }
    return false;
}

static void tell(struct steps *s, int message, const struct taking *receive) {
    const struct sent *it = &s->sent[message];
    if (is_told(s, it, receive)) return;
    struct finding *told =
        receive == NULL
            ? note(s, it->source, READY_EARLY, "rank %d: the ready send to rank %d with %s at %%0 has no receive",
                   it->source, it->target, tag_word(it->tag))
            : note(s, it->source, READY_EARLY,
                   "rank %d: the ready send to rank %d with %s at %%0 may come before its receive (%s at %%1)",
                   it->source, it->target, tag_word(it->tag), receive->place.name);
    at_place(told, &it->place);
    if (receive != NULL) at_place(told, &receive->place);
}

void steps_tell_ready(struct steps *s, bool is_at_end) {
    s->has_unsure_ready = s->has_ready && is_log_full(s);
    if (!s->has_ready || s->has_unsure_ready) return;
    for (int rank = 0; rank < s->options.size; rank++) find_messages(s, rank);
    for (int i = 0; i < (int)s->sent_count; i++) {
        if (!s->sent[i].is_ready) continue;
        const struct taking *receive = receive_of(s, i);
        if (receive == NULL ? is_at_end : !is_posted_before(s, i, receive)) tell(s, i, receive);
    }
}

bool steps_is_ready_unsure(const struct steps *s) { return s->has_unsure_ready; }
