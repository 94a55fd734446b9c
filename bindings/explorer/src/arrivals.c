/* Orders of arrival: whether the messages that came to the ranks may have come in some one order that gives all that
 * was taken; and the picture of a run. See steps.h. */
#include "state.h"

#include <stdlib.h>
#include <string.h>

enum { MOST_EVENTS = 200000, MOST_SENT = 2000000, MOST_ORDERED = 20000 };

/* ---- what happened ---- */

void log_event(struct steps *s, int rank, enum event_kind kind, uint32_t id, uint64_t name) {
    if (s->event_count == MOST_EVENTS) return;
    s->events = one_more(s->events, s->event_count, &s->event_room, sizeof *s->events);
    s->events[s->event_count++] = (struct event){kind, rank, id, name};
}

uint32_t log_sent(struct steps *s, int rank, const struct explorer_ask *ask) {
    const struct members *of = members_of(s, rank, ask->call.communicator);
    int target = world_rank(s, rank, ask->call.communicator, ask->call.peer);
    if (of == NULL || target < 0 || s->sent_count == MOST_SENT) return NOT_SENT;
    s->sent = one_more(s->sent, s->sent_count, &s->sent_room, sizeof *s->sent);
    const uint64_t name = ask->plan == 0 ? of->name : ~of->name;
    s->sent[s->sent_count] = (struct sent){name, rank, target, ask->call.tag, ask->is_ready != 0, s->ranks[rank].place};
    if (ask->is_ready != 0) s->has_ready = true;
    log_event(s, rank, EVENT_SEND, (uint32_t)s->sent_count, 0);
    return (uint32_t)s->sent_count++;
}

void log_taking(struct steps *s, int rank, uint32_t at, const struct engine_call *call, int32_t source, bool is_look,
                const struct place *place) {
    struct rank *own = &s->ranks[rank];
    const struct members *of = members_of(s, rank, call->communicator);
    int world = world_rank(s, rank, call->communicator, source);
    if (of == NULL || world < 0) return;
    size_t room = (size_t)own->taking_room;
    own->takings = one_more(own->takings, (size_t)own->taking_count, &room, sizeof *own->takings);
    own->taking_room = (int)room;
    own->takings[own->taking_count++] =
        (struct taking){at, of->name, world, call->tag, call->peer == ENGINE_ANY, is_look, -1, -1, *place};
}

/* A receive of a plan's: its messages are none of the program's. */
void log_plan_taking(struct steps *s, int rank, const struct operation *it) {
    struct rank *own = &s->ranks[rank];
    const int before = own->taking_count;
    log_taking(s, rank, it->at, &it->call, it->call.peer, false, &it->place);
    if (own->taking_count > before) own->takings[before].name = ~own->takings[before].name;
}

bool is_log_full(const struct steps *s) { return s->event_count == MOST_EVENTS || s->sent_count == MOST_SENT; }

/* ---- graphs ---- */

struct edge {
    int from, to;
};
struct graph {
    struct edge *edges;
    size_t count, room;
    int nodes;
};

static void join(struct graph *g, int from, int to) {
    g->edges = one_more(g->edges, g->count, &g->room, sizeof *g->edges);
    g->edges[g->count++] = (struct edge){from, to};
}

/* Whether nothing comes before itself: all nodes can be taken one by one, each behind all that come before it. */
static bool is_acyclic(const struct graph *g) {
    size_t nodes = (size_t)g->nodes;
    int *left = calloc(nodes + 2, sizeof *left), *first = calloc(nodes + 2, sizeof *first);
    int *to = room_for(NULL, g->count + 1, sizeof *to), *row = room_for(NULL, nodes + 1, sizeof *row), end = 0;
    for (size_t i = 0; i < g->count; i++) left[g->edges[i].to]++, first[g->edges[i].from + 2]++;
    for (size_t i = 1; i < nodes + 1; i++) first[i + 1] += first[i];
    for (size_t i = 0; i < g->count; i++) to[first[g->edges[i].from + 1]++] = g->edges[i].to;
    for (int i = 0; i < g->nodes; i++)
        if (left[i] == 0) row[end++] = i;
    for (int k = 0; k < end; k++)
        for (int i = first[row[k]]; i < first[row[k] + 1]; i++)
            if (--left[to[i]] == 0) row[end++] = to[i];
    free(left), free(first), free(to), free(row);
    return end == g->nodes;
}

/* ---- one order ---- */

static int by_begin(const void *a, const void *b) {
    const struct taking *x = a, *y = b;
    return x->at < y->at ? -1 : x->at > y->at;
}

static struct taking *taking_of(const struct rank *own, uint32_t at) {
    const struct taking key = {.at = at};
    if (own->taking_count == 0) return NULL;
    return bsearch(&key, own->takings, (size_t)own->taking_count, sizeof key, by_begin);
}

/* The messages to a rank, in the order in which they were sent; each behind the one before it of its link. */
struct coming {
    int *all, count;
    bool *is_taken;
};
static struct coming coming_to(const struct steps *s, int rank, struct graph *g) {
    struct coming it = {room_for(NULL, s->sent_count, sizeof *it.all), 0, NULL};
    int last_of[MOST_RANKS];
    memset(last_of, -1, sizeof last_of);
    for (size_t i = 0; i < s->sent_count; i++) {
        if (s->sent[i].target != rank) continue;
        int *last = &last_of[s->sent[i].source];
        if (g != NULL && *last >= 0) join(g, *last, (int)i);
        *last = it.all[it.count++] = (int)i;
    }
    it.is_taken = calloc((size_t)it.count + 1, 1);
    return it;
}

/* Of each source the first message that a receive accepts and none before it took. */
static void find_first(const struct steps *s, const struct coming *it, const struct taking *t,
                       int first_of[MOST_RANKS]) {
    memset(first_of, -1, MOST_RANKS * sizeof *first_of);
    for (int i = it->count - 1; i >= 0; i--) {
        const struct sent *message = &s->sent[it->all[i]];
        if (!it->is_taken[i] && message->name == t->name && do_tags_meet(message->tag, t->tag))
            first_of[message->source] = i;
    }
}

/* Finds which message each receive of a rank took. One of any source took its message before all others that it accepts
 * and no receive begun before it took. */
static void find_takings(const struct steps *s, int rank, struct graph *g) {
    struct rank *own = &s->ranks[rank];
    struct coming it = coming_to(s, rank, g);
    if (own->taking_count > 1) qsort(own->takings, (size_t)own->taking_count, sizeof *own->takings, by_begin);
    for (int k = 0; k < own->taking_count; k++) {
        struct taking *t = &own->takings[k];
        int first_of[MOST_RANKS];
        find_first(s, &it, t, first_of);
        int took = first_of[t->source];
        t->message = took < 0 ? -1 : it.all[took];
        if (took < 0) continue;
        for (int source = 0; g != NULL && t->is_wild && source < s->options.size; source++)
            if (source != t->source && first_of[source] >= 0) join(g, it.all[took], it.all[first_of[source]]);
        it.is_taken[took] = !t->is_look;
    }
    free(it.all), free(it.is_taken);
}

static void join_event(const struct steps *s, const struct event *e, int node, struct graph *g) {
    bool is_receive = e->kind == EVENT_POST || e->kind == EVENT_END;
    struct taking *t = is_receive ? taking_of(&s->ranks[e->rank], e->id) : NULL;
    if (e->kind == EVENT_SEND) join(g, node, (int)e->id);
    if (e->kind == EVENT_POST && t != NULL) t->posted = node;
    if (e->kind == EVENT_END && t != NULL && t->message >= 0) join(g, t->message, node);
    if (e->kind != EVENT_SEND_END) return;
    join(g, (int)e->id, node);
    const struct rank *other = &s->ranks[s->sent[e->id].target];
    for (int k = 0; k < other->taking_count; k++)
        if (other->takings[k].message == (int)e->id && other->takings[k].posted >= 0)
            join(g, other->takings[k].posted, node);
}

/* All who enter a collective are there before one leaves it: a node of its own, named by the first who entered. */
static void join_meeting(const struct steps *s, size_t at, int messages, struct graph *g) {
    const struct event *e = &s->events[at];
    if (e->kind != EVENT_ENTER && e->kind != EVENT_LEAVE) return;
    for (size_t k = 0; k <= at; k++) {
        const struct event *first = &s->events[k];
        if (first->kind != EVENT_ENTER || first->name != e->name || first->id != e->id) continue;
        int node = messages + (int)at, middle = messages + (int)(s->event_count + k);
        if (e->kind == EVENT_ENTER) join(g, node, middle);
        else join(g, middle, node);
        return;
    }
}

static bool has_wild(const struct steps *s) {
    for (int rank = 0; rank < s->options.size; rank++)
        for (int i = 0; i < s->ranks[rank].taking_count; i++)
            if (s->ranks[rank].takings[i].is_wild) return true;
    return false;
}

bool steps_has_one_order(const struct steps *s) {
    int messages = (int)s->sent_count, last_of[MOST_RANKS];
    if (!has_wild(s) || s->sent_count + s->event_count > MOST_ORDERED) return true;
    struct graph g = {.nodes = messages + 2 * (int)s->event_count};
    memset(last_of, -1, sizeof last_of);
    for (int rank = 0; rank < s->options.size; rank++) {
        for (int k = 0; k < s->ranks[rank].taking_count; k++) s->ranks[rank].takings[k].posted = -1;
        find_takings(s, rank, &g);
    }
    for (size_t i = 0; i < s->event_count; i++) {
        const struct event *e = &s->events[i];
        int node = messages + (int)i;
        if (last_of[e->rank] >= 0) join(&g, last_of[e->rank], node);
        last_of[e->rank] = node;
        join_event(s, e, node, &g);
        join_meeting(s, i, messages, &g);
    }
    bool is_one = is_acyclic(&g);
    free(g.edges);
    return is_one;
}

/* ---- the picture ---- */

int steps_picture(const struct steps *s, struct picture_item **items) {
    int count = 0;
    struct picture_item *row = room_for(NULL, s->event_count, sizeof *row);
    for (int rank = 0; rank < s->options.size; rank++) find_takings(s, rank, NULL);
    for (size_t i = 0; i < s->event_count; i++) {
        const struct event *e = &s->events[i];
        const struct taking *t = e->kind == EVENT_END ? taking_of(&s->ranks[e->rank], e->id) : NULL;
        const struct sent *sent = e->kind == EVENT_SEND ? &s->sent[e->id] : NULL;
        if (sent != NULL)
            row[count++] =
                (struct picture_item){ITEM_SEND, e->rank, (int)e->id, sent->target, sent->tag, false, sent->place};
        else if (t != NULL && t->message >= 0 && !t->is_look)
            row[count++] = (struct picture_item){ITEM_RECEIVE, e->rank, t->message, t->source, s->sent[t->message].tag,
                                                 t->is_wild,   t->place};
        else if (e->kind == EVENT_ENTER)
            row[count++] = (struct picture_item){.kind = ITEM_ENTER, .rank = e->rank, .message = -1, .other = -1};
    }
    *items = row;
    return count;
}
