/* What is told of a run: see steps.h. */
#include "choices.h"
#include "state.h"

#include <stdarg.h>
#include <stdlib.h>
#include <string.h>

struct finding *note(struct steps *s, int rank, enum finding_kind kind, const char *text, ...) {
    s->findings = room_for(s->findings, (size_t)s->finding_count + 1, sizeof *s->findings);
    struct finding *it = &s->findings[s->finding_count++];
    *it = (struct finding){.kind = kind, .rank = rank, .number = s->finding_count};
    it->weight = kombazily_finding_weight(kind);
    va_list arguments;
    va_start(arguments, text);
    vsnprintf(it->text, sizeof it->text, text, arguments);
    va_end(arguments);
    return it;
}

void at_place(struct finding *it, const struct place *place) {
    if (it->place_count < 2) it->places[it->place_count++] = *place;
}

void steps_note(struct steps *s, int rank, enum finding_kind kind, const char *text) {
    const struct place *last = &s->ranks[rank].place;
    if (kind == RECORD_ENDS || last->name[0] == '\0') note(s, rank, kind, "%s", text);
    else
        at_place(note(s, rank, kind, "%s, %s %s at %%0", text, kind == KILLED ? "in or after" : "after", last->name),
                 last);
}

static int in_order(const void *a, const void *b) {
    const struct finding *x = a, *y = b;
    if (x->number == y->number) return 0;
    bool is_before = kombazily_finding_is_before(x->kind, (uint32_t)x->rank, (uint32_t)x->number, y->kind,
                                                 (uint32_t)y->rank, (uint32_t)y->number);
    return is_before ? -1 : 1;
}

int steps_findings(struct steps *s, const struct finding **findings) {
    if (s->finding_count > 1) qsort(s->findings, (size_t)s->finding_count, sizeof *s->findings, in_order);
    *findings = s->findings;
    return s->finding_count;
}

bool steps_has_mismatch(const struct steps *s) { return s->has_mismatch; }

/* A few words at once, for the same line. */
static char *next_word(void) {
    static char words[4][24];
    static int at;
    at = (at + 1) & 3;
    return words[at];
}

const char *peer_word(int32_t peer) {
    char *word = next_word();
    if (peer == ENGINE_ANY) return "any rank";
    snprintf(word, sizeof(char[24]), "rank %d", peer);
    return word;
}

const char *tag_word(int32_t tag) {
    char *word = next_word();
    if (tag == ENGINE_ANY) return "any tag";
    snprintf(word, sizeof(char[24]), "tag %d", tag);
    return word;
}

/* The peer of a send or a receive, by its rank in `world`. */
static const char *world_word(struct steps *s, int rank, const struct engine_call *call) {
    int world = world_rank(s, rank, call->communicator, call->peer);
    return peer_word(world < 0 ? call->peer : world);
}

/* ---- what is left over ---- */

static void tell_request(struct steps *s, int rank, const struct explorer_entry *entry) {
    const struct operation *it = operation_of(s, rank, entry->key);
    const struct plan *plan = plan_of(&s->ranks[rank], entry->other);
    if (plan != NULL) {
        at_place(note(s, rank, REQUEST_LEFT, "rank %d ended with a request that no call ended: %s, begun at %%0", rank,
                      plan->place.name),
                 &plan->place);
        return;
    }
    if (it == NULL) {
        at_place(note(s, rank, REQUEST_LEFT, "rank %d ended with a request that no call ended, at %%0", rank),
                 &s->ranks[rank].place);
        return;
    }
    at_place(note(s, rank, REQUEST_LEFT, "rank %d ended with a request that no call ended: %s %s with %s, begun at %%0",
                  rank, it->is_send ? "a send to" : "a receive of", world_word(s, rank, &it->call),
                  tag_word(it->call.tag)),
             &it->place);
}

/* The communicator whose number stands there among what a rank left behind. */
static void tell_communicator(struct steps *s, int rank, uint32_t place) {
    const struct members *of = members_of(s, rank, place);
    at_place(note(s, rank, COMMUNICATOR_LEFT, "rank %d ended with a communicator never freed, made at %%0", rank),
             of == NULL ? &s->ranks[rank].place : &of->made_at);
}

static const char *plural(uint32_t count) { return count == 1 ? "" : "s"; }

/* Types or persistent requests that were made at one place: they are no fault. */
static void tell_made(struct steps *s, int rank, const struct made_left *left) {
    const char *what = left->kind == MADE_TYPE ? "type" : "persistent request";
    at_place(note(s, rank, TYPES_LEFT, "rank %d ended with %u %s%s never freed, made at %%0", rank, left->count, what,
                  plural(left->count)),
             left->place);
}

static void tell_taken(struct steps *s, int rank, const struct explorer_left *left) {
    at_place(note(s, rank, MESSAGES_TAKEN, "rank %d ended with %u message%s taken out and never received, at %%0", rank,
                  left->messages, plural(left->messages)),
             &s->ranks[rank].place);
}

void tell_left(struct steps *s, int rank, const uint8_t *bytes) {
    const struct rank *own = &s->ranks[rank];
    const uint32_t requests = own->ask.count;
    struct explorer_left left = {0};
    uint32_t kind;
    if (own->ask.length >= sizeof left) memcpy(&left, bytes, sizeof left);
    const uint32_t count = left.communicators + left.types + left.persistent;
    if (own->ask.length != sizeof left + count * sizeof(uint32_t)) return;
    uint32_t *numbers = room_for(NULL, count, sizeof *numbers);
    struct made_left *made = room_for(NULL, count, sizeof *made);
    if (count > 0) memcpy(numbers, bytes + sizeof left, count * sizeof *numbers);
    const uint32_t *types = numbers + left.communicators;
    uint32_t places = count_made(own, MADE_TYPE, types, left.types, made, 0);
    places = count_made(own, MADE_PERSISTENT, types + left.types, left.persistent, made, places);
    for (uint64_t at = 0; (kind = kombazily_leak_at(requests, left.communicators, places, left.messages, at)) != 0;
         at++) {
        if (kind == REQUEST_LEFT) tell_request(s, rank, &own->entries[at]);
        else if (kind == COMMUNICATOR_LEFT) tell_communicator(s, rank, numbers[at - requests]);
        else if (kind == TYPES_LEFT) tell_made(s, rank, &made[at - requests - left.communicators]);
        else tell_taken(s, rank, &left);
    }
    free(numbers);
    free(made);
}

void tell_unsafe(struct steps *s, const struct move *moves, int count) {
    const bool only_buffers = kombazily_choices_only_buffers(s->options.choices);
    const uint32_t told = kombazily_sends_told((uint32_t)count, only_buffers, s->is_unsafe_told);
    if (told == 0) return;
    s->is_unsafe_told = true;
    note(s, -1, NEEDS_BUFFER, "nobody goes on here unless a send is buffered:");
    for (uint32_t i = 0; i < told; i++) {
        const struct operation *it = send_of(s, &moves[i]);
        if (it == NULL) continue;
        const char *peer = world_word(s, (int)moves[i].rank, &it->call);
        struct finding *line = it->plan != 0
                                   ? note(s, -1, NEEDS_BUFFER, "  rank %u hands %s a block at %%0", moves[i].rank, peer)
                                   : note(s, -1, NEEDS_BUFFER, "  rank %u sends to %s with %s at %%0", moves[i].rank,
                                          peer, tag_word(it->call.tag));
        at_place(line, &it->place);
    }
}

/* ---- deadlocks ---- */

/* The ranks that a rank waits for, as bits. */
static uint64_t bit(int rank) { return UINT64_C(1) << rank; }

static uint64_t members_but(const struct members *of, int rank) {
    uint64_t all = 0;
    for (int i = 0; of != NULL && i < of->size; i++) all |= bit(of->of[i]);
    return all & ~bit(rank);
}

/* Those of a communicator of a rank that have entered fewer collectives of a name. */
static uint64_t behind(struct steps *s, int rank, const struct members *of, uint64_t name, uint32_t entry) {
    uint64_t all = 0;
    for (int i = 0; of != NULL && i < of->size; i++)
        if (entered_by(&s->ranks[of->of[i]], name) < entry) all |= bit(of->of[i]);
    return all & ~bit(rank);
}

/* Those that haven't entered a collective that goes by sends and receives. */
static uint64_t behind_plan(struct steps *s, int rank, const struct plan *plan) {
    return behind(s, rank, members_of(s, rank, plan->communicator), plan->name, plan->entry);
}

/* Those of a collective that haven't entered it. */
static uint64_t absent_members(struct steps *s, int rank) {
    const struct rank *own = &s->ranks[rank];
    const struct members *of = members_of(s, rank, own->ask.call.communicator);
    return of == NULL ? 0 : behind(s, rank, of, of->name, own->entry);
}

static uint64_t peers_of(struct steps *s, int rank, const struct engine_call *call) {
    if (call->peer == ENGINE_ANY) return members_but(members_of(s, rank, call->communicator), rank);
    int world = world_rank(s, rank, call->communicator, call->peer);
    return world < 0 ? 0 : bit(world);
}

/* The same of one that goes by sends and receives, of which this is one; else its peer. */
static uint64_t awaited_by(struct steps *s, int rank, const struct operation *it) {
    const struct plan *plan = plan_of(&s->ranks[rank], it->plan);
    uint64_t absent = plan == NULL ? 0 : behind_plan(s, rank, plan);
    return absent != 0 ? absent : peers_of(s, rank, &it->call);
}

/* The first request of a list that isn't at its end, or NULL. */
static const struct operation *first_open(struct steps *s, int rank) {
    const struct rank *own = &s->ranks[rank];
    if (own->ask.kind == ASK_WAIT) return operation_of(s, rank, own->ask.call.request.key);
    for (uint32_t i = 0; i < own->ask.count; i++) {
        if (own->entries[i].key < EXPLORER_OPEN && !is_done(s, rank, own->entries[i].key))
            return operation_of(s, rank, own->entries[i].key);
        if (own->entries[i].other < EXPLORER_OPEN && !is_done(s, rank, own->entries[i].other))
            return operation_of(s, rank, own->entries[i].other);
    }
    bool is_of_plans = own->ask.kind == ASK_PAUSE || is_list(own->ask.kind);
    for (int key = 0; is_of_plans && key < own->operation_count; key++)
        if (own->operations[key].state != OP_NONE && own->operations[key].is_looked_at) return &own->operations[key];
    return NULL;
}

static uint64_t waited_for(struct steps *s, int rank) {
    const struct rank *own = &s->ranks[rank];
    uint64_t all = 0;
    if (own->state != RANK_BLOCKED) return 0;
    if (own->is_finalized) {
        for (int other = 0; other < s->options.size; other++)
            if (!s->ranks[other].is_finalized && s->ranks[other].state != RANK_ENDED) all |= bit(other);
        return all;
    }
    if (own->ask.kind == ASK_CALL) return absent_members(s, rank);
    if (own->ask.kind == ASK_PROBE) return peers_of(s, rank, &own->ask.call);
    if (own->ask.kind == ASK_WAITALL || own->ask.kind == ASK_WAIT || own->ask.kind == ASK_PAUSE) {
        const struct operation *it = first_open(s, rank);
        return it == NULL ? 0 : awaited_by(s, rank, it);
    }
    for (uint32_t i = 0; i < own->ask.count; i++) {
        const struct operation *it =
            own->entries[i].key < EXPLORER_OPEN ? operation_of(s, rank, own->entries[i].key) : NULL;
        if (it != NULL) all |= peers_of(s, rank, &it->call);
    }
    return all;
}

/* Ranks of which each waits for the next one and the last for the first: the shortest such row that begins here. */
static int find_cycle(const uint64_t waits[MOST_RANKS], int size, int from, int cycle[MOST_RANKS]) {
    int before[MOST_RANKS], row[MOST_RANKS], end = 1;
    memset(before, -1, sizeof before);
    row[0] = from;
    for (int k = 0; k < end; k++) {
        for (int next = 0; next < size; next++) {
            if ((waits[row[k]] >> next & 1) == 0) continue;
            if (next == from) {
                int count = 0;
                for (int at = row[k]; at != -1; at = before[at]) cycle[count++] = at;
                return count;
            }
            if (before[next] != -1 || next == from) continue;
            before[next] = row[k];
            row[end++] = next;
        }
    }
    return 0;
}

/* Tells a shortest cycle. Who waits for any rank waits for each of them. */
static void tell_cycle(struct steps *s) {
    uint64_t waits[MOST_RANKS];
    int best[MOST_RANKS], length = 0;
    for (int rank = 0; rank < s->options.size; rank++) waits[rank] = waited_for(s, rank);
    for (int rank = 0; rank < s->options.size; rank++) {
        int cycle[MOST_RANKS], own = find_cycle(waits, s->options.size, rank, cycle);
        if (own < 2 || (length > 0 && own >= length)) continue;
        length = own;
        memcpy(best, cycle, sizeof best);
    }
    if (length == 0) return;
    s->cycle_length = length;
    for (int i = 0; i < length; i++) s->cycle[i] = best[length - 1 - i];
    char text[400];
    size_t at = (size_t)snprintf(text, sizeof text, "a cycle: rank %d", best[length - 1]);
    for (int i = length - 2; i >= 0 && at < sizeof text; i--)
        at += (size_t)snprintf(text + at, sizeof text - at, " waits for rank %d, which", best[i]);
    if (at < sizeof text) snprintf(text + at, sizeof text - at, " waits for rank %d", best[length - 1]);
    note(s, s->options.size, CYCLE, "%s", text);
}

int steps_cycle(const struct steps *s, int ranks[MOST_RANKS]) {
    memcpy(ranks, s->cycle, (size_t)s->cycle_length * sizeof *ranks);
    return s->cycle_length;
}

int say_ranks(const struct steps *s, uint64_t ranks, char *into, size_t room) {
    int count = 0, told = 0;
    for (int rank = 0; rank < s->options.size; rank++) count += ranks >> rank & 1;
    snprintf(into, room, "%s", count > 1 ? "ranks" : count == 1 ? "rank" : "");
    for (int rank = 0; rank < s->options.size; rank++) {
        if ((ranks >> rank & 1) == 0) continue;
        const char *before = told == 0 ? " " : told == count - 1 ? " and " : ", ";
        snprintf(into + strlen(into), room - strlen(into), "%s%d", before, rank);
        told++;
    }
    return count;
}

static void tell_collective(struct steps *s, int rank) {
    const struct rank *own = &s->ranks[rank];
    char who[300];
    (void)say_ranks(s, is_collective(own->ask.call.kind) ? absent_members(s, rank) : 0, who, sizeof who);
    at_place(note(s, rank, WAITS, "rank %d waits in %s at %%0%s%s%s", rank, own->ask.name, *who ? " for " : "", who,
                  *who ? " to enter" : ""),
             &own->place);
}

static const char *doing(enum finding_kind kind) { return kind == ASKS_FOR_EVER ? "asks for ever" : "waits"; }

/* The same of a rank that waits for the end of one that goes by sends and receives. */
static void tell_plan(struct steps *s, int rank, enum finding_kind kind, const struct operation *it) {
    const struct rank *own = &s->ranks[rank];
    const struct plan *plan = plan_of(own, it->plan);
    char who[300];
    const int count = say_ranks(s, awaited_by(s, rank, it), who, sizeof who);
    bool is_absent = behind_plan(s, rank, plan) != 0;
    const char *what = is_absent ? "enter" : count > 1 ? "hand in their parts" : "hand in its part";
    struct finding *told = note(s, rank, kind, "rank %d %s in %s at %%0 for %s to %s (%s at %%1)", rank, doing(kind),
                                own->ask.name, who, what, plan->place.name);
    at_place(told, &own->place);
    at_place(told, &plan->place);
}

/* What a rank waits for that has a request, or a list of them. */
static void tell_request_wait(struct steps *s, int rank, enum finding_kind kind) {
    const struct rank *own = &s->ranks[rank];
    const struct operation *it = first_open(s, rank);
    bool is_one = own->ask.kind == ASK_WAIT || own->ask.count == 1;
    if (it == NULL) {
        at_place(note(s, rank, kind, "rank %d %s in %s at %%0", rank, doing(kind), own->ask.name), &own->place);
        return;
    }
    if (plan_of(own, it->plan) != NULL) {
        tell_plan(s, rank, kind, it);
        return;
    }
    const char *peer = world_word(s, rank, &it->call), *tag = tag_word(it->call.tag);
    char what[120];
    if (it->is_send) snprintf(what, sizeof what, "its message to %s with %s to be received", peer, tag);
    else snprintf(what, sizeof what, "a message of %s with %s", peer, tag);
    struct finding *told = note(s, rank, kind, "rank %d %s in %s at %%0 for %s%s (%s at %%1)", rank, doing(kind),
                                own->ask.name, is_one ? "" : "requests, first ", what, it->place.name);
    at_place(told, &own->place);
    at_place(told, &it->place);
}

static void tell_wait(struct steps *s, int rank, enum finding_kind kind) {
    const struct rank *own = &s->ranks[rank];
    if (kind == IN_FINALIZE) {
        at_place(note(s, rank, kind, "rank %d is in MPI_Finalize at %%0", rank), &own->place);
    } else if (own->ask.kind == ASK_CALL) {
        tell_collective(s, rank);
    } else if (own->ask.kind == ASK_PROBE) {
        at_place(note(s, rank, kind, "rank %d %s in %s at %%0 for a message of %s with %s", rank, doing(kind),
                      own->ask.name, world_word(s, rank, &own->ask.call), tag_word(own->ask.call.tag)),
                 &own->place);
    } else {
        tell_request_wait(s, rank, kind);
    }
}

void steps_tell_deadlock(struct steps *s) {
    for (int rank = 0; rank < s->options.size; rank++) {
        const enum finding_kind kind = kind_of_wait(&s->ranks[rank]);
        if (kind != 0) tell_wait(s, rank, kind);
    }
    tell_cycle(s);
}

/* ---- messages that nobody received ---- */

enum { MOST_LEFT = 64 };

/* Takes the messages of a source out that are left: how many, and their tags. */
static int take_left(struct steps *s, int rank, uint32_t communicator, int source, int32_t tags[MOST_LEFT]) {
    const struct engine_call take = {
        .kind = ENGINE_IMPROBE, .communicator = communicator, .peer = source, .tag = ENGINE_ANY};
    int count = 0;
    while (count < MOST_LEFT) {
        const struct engine_answer answer = ask_rank(s, rank, take);
        if (answer.kind != ENGINE_MATCHED) break;
        tags[count++] = answer.tag;
    }
    return count;
}

/* The last message with these marks before this place: messages of one tag don't overtake, so what is left was sent
 * last. */
static const struct sent *sent_before(const struct steps *s, size_t *before, int source, int target, uint64_t name,
                                      int32_t tag) {
    while (*before > 0) {
        const struct sent *it = &s->sent[--*before];
        if (it->source == source && it->target == target && it->name == name && it->tag == tag) return it;
    }
    return NULL;
}

static void tell_left_of(struct steps *s, int rank, uint32_t communicator, int source) {
    const struct members *of = &s->ranks[rank].members[communicator];
    int32_t tags[MOST_LEFT];
    size_t before = s->sent_count;
    for (int i = take_left(s, rank, communicator, source, tags) - 1; i >= 0; i--) {
        const struct sent *found = sent_before(s, &before, of->of[source], rank, of->name, tags[i]);
        struct finding *it = note(s, rank, NEVER_RECEIVED, "rank %d never received a message of rank %d with tag %d%s",
                                  rank, of->of[source], tags[i], found == NULL ? "" : ", sent at %0");
        if (found != NULL) at_place(it, &found->place);
    }
}

void steps_tell_rest(struct steps *s) {
    tell_absent(s);
    tell_unfreed_members(s);
    for (int rank = 0; rank < s->options.size; rank++) {
        const struct rank *own = &s->ranks[rank];
        for (uint32_t at = 0; !own->is_in_engine && at < (uint32_t)own->members_count; at++)
            for (int source = 0; own->members[at].is_made && source < own->members[at].size; source++)
                tell_left_of(s, rank, at, source);
    }
}

/* What a rank waits in vain to receive: false, it waits for something else. */
static bool awaits_message(struct steps *s, int rank, struct engine_call *call) {
    const struct rank *own = &s->ranks[rank];
    if (own->state != RANK_BLOCKED || own->is_finalized || own->is_in_engine || own->ask.kind == ASK_CALL) return false;
    const struct operation *it = own->ask.kind == ASK_PROBE ? NULL : first_open(s, rank);
    if (own->ask.kind != ASK_PROBE && (it == NULL || it->is_send || it->plan != 0)) return false;
    *call = it == NULL ? own->ask.call : it->call;
    return true;
}

void steps_tell_others(struct steps *s) {
    struct engine_call call;
    for (int rank = 0; rank < s->options.size; rank++) {
        if (!awaits_message(s, rank, &call)) continue;
        const struct members *of = members_of(s, rank, call.communicator);
        for (int source = 0; of != NULL && source < of->size; source++)
            if (call.peer == ENGINE_ANY || call.peer == source) tell_left_of(s, rank, call.communicator, source);
    }
}
