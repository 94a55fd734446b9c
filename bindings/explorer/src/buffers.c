/* Of which messages in the buffer of MPI_Bsend a rank knows that they were received (MPI 3.1, 3.6): what happened at
 * their receivers behind that has come to it. Of all others some run has them in the buffer still. See state.h. */
#include "state.h"

#include <stdlib.h>
#include <string.h>

/* What follows from one event: the ranks that know of it, and messages and collectives that tell of it. */
struct spread {
    bool knows[MOST_RANKS];
    bool *tells;    /* of each message */
    bool *is_early; /* of each message: its receive was begun by a rank that knew */
    struct event *meetings;
    size_t meeting_count, meeting_room;
};

static int by_begin(const void *a, const void *b) {
    const struct taking *x = a, *y = b;
    return x->at < y->at ? -1 : x->at > y->at;
}

/* The first message for a receive among those to its rank from `first` on, each of which is -1 once it is taken: its
 * place, or `count`. */
static size_t find_message(const struct steps *s, const struct taking *it, const int *all, size_t first, size_t count) {
    for (size_t i = first; i < count; i++) {
        const struct sent *sent = all[i] < 0 ? NULL : &s->sent[all[i]];
        if (sent != NULL && sent->source == it->source && sent->name == it->name && do_tags_meet(sent->tag, it->tag))
            return i;
    }
    return count;
}

void find_messages(struct steps *s, int rank) {
    struct rank *own = &s->ranks[rank];
    int *all = room_for(NULL, s->sent_count, sizeof *all);
    size_t count = 0, first = 0;
    for (size_t i = 0; i < s->sent_count; i++)
        if (s->sent[i].target == rank) all[count++] = (int)i;
    if (own->taking_count > 1) qsort(own->takings, (size_t)own->taking_count, sizeof *own->takings, by_begin);
    for (int k = 0; k < own->taking_count; k++) {
        struct taking *it = &own->takings[k];
        size_t place = find_message(s, it, all, first, count);
        it->message = place < count ? all[place] : -1;
        if (place < count && !it->is_look) all[place] = -1;
        while (first < count && all[first] < 0) first++;
    }
    free(all);
}

static const struct taking *taking_at(const struct rank *own, uint32_t at) {
    const struct taking key = {.at = at};
    if (own->taking_count == 0) return NULL;
    return bsearch(&key, own->takings, (size_t)own->taking_count, sizeof key, by_begin);
}

static bool is_told_by_meeting(const struct spread *it, const struct event *e) {
    for (size_t i = 0; i < it->meeting_count; i++)
        if (it->meetings[i].name == e->name && it->meetings[i].id == e->id) return true;
    return false;
}

static void go_on_by(const struct steps *s, struct spread *it, const struct event *e) {
    const struct rank *own = &s->ranks[e->rank];
    const struct taking *t = e->kind == EVENT_POST || e->kind == EVENT_END ? taking_at(own, e->id) : NULL;
    bool *knows = &it->knows[e->rank];
    switch (e->kind) {
    case EVENT_SEND:
        it->tells[e->id] = *knows;
        break;
    case EVENT_POST:
        if (t != NULL && t->message >= 0) it->is_early[t->message] = *knows;
        break;
    case EVENT_END:
        if (t != NULL && t->message >= 0) *knows |= it->tells[t->message];
        break;
    case EVENT_SEND_END:
        *knows |= it->is_early[e->id];
        break;
    case EVENT_ENTER:
    case EVENT_GIVE:
        if (!*knows) break;
        it->meetings = one_more(it->meetings, it->meeting_count, &it->meeting_room, sizeof *e);
        it->meetings[it->meeting_count++] = *e;
        break;
    default:
        *knows |= is_told_by_meeting(it, e);
    }
}

bool is_known_before(const struct steps *s, size_t from, size_t before, int rank) {
    struct spread it = {.tells = calloc(s->sent_count + 1, 1), .is_early = calloc(s->sent_count + 1, 1)};
    it.knows[s->events[from].rank] = true;
    for (size_t at = from + 1; at < before && !it.knows[rank]; at++) go_on_by(s, &it, &s->events[at]);
    free(it.tells), free(it.is_early), free(it.meetings);
    return it.knows[rank];
}

/* Whether a rank knows that its message was received. */
static bool is_received(const struct steps *s, int rank, int message) {
    const int target = s->sent[message].target;
    const struct rank *other = &s->ranks[target];
    for (size_t at = 0; at < s->event_count; at++) {
        const struct event *e = &s->events[at];
        const struct taking *t = e->rank == target && e->kind == EVENT_END ? taking_at(other, e->id) : NULL;
        if (t != NULL && !t->is_look && t->message == message) return is_known_before(s, at, s->event_count, rank);
    }
    return false;
}

void answer_kept(struct steps *s, int rank) {
    const struct rank *own = &s->ranks[rank];
    uint32_t count = 0;
    for (int i = 0; i < s->options.size; i++) find_messages(s, i);
    while (count < own->ask.count) {
        const uint64_t key = own->entries[count].key;
        const struct operation *it = key >= EXPLORER_MADE ? NULL : operation_of(s, rank, key);
        bool goes = it != NULL && it->state != OP_FAILED && it->sent_at != NOT_SENT;
        if (goes && !is_log_full(s) && !is_received(s, rank, (int)it->sent_at)) break;
        count++;
    }
    give_fact(s, rank, count);
}
