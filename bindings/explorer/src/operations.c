/* Sends and receives of ranks, from their beginnings to their ends: see state.h. */
#include "state.h"

#include <string.h>

/* A rank has as many numbers of requests as requests that were open at once. */
enum { MOST_OPERATIONS = 1 << 20 };

struct operation *operation_of(struct steps *s, int rank, uint64_t key) {
    struct rank *own = &s->ranks[rank];
    if (key >= (uint64_t)own->operation_count || own->operations[key].state == OP_NONE) return NULL;
    return &own->operations[key];
}

/* The rank picks the number. */
static int new_operation(struct rank *own, const struct explorer_ask *ask, bool is_send) {
    int key = (int)(ask->call.request.key % MOST_OPERATIONS);
    while (own->operation_room <= key) {
        int room = own->operation_room == 0 ? 16 : 2 * own->operation_room;
        own->operations = room_for(own->operations, (size_t)room, sizeof *own->operations);
        memset(own->operations + own->operation_room, 0,
               (size_t)(room - own->operation_room) * sizeof *own->operations);
        own->operation_room = room;
    }
    if (own->operation_count <= key) own->operation_count = key + 1;
    own->operations[key] =
        (struct operation){.is_send = is_send, .plan = ask->plan, .at = ++own->begun, .call = ask->call};
    own->operations[key].place = own->place;
    return key;
}

/* Whether a send waits for its receive: a standard one by the pass, and by how long it is. */
static bool is_to_wait(struct steps *s, const struct explorer_ask *ask) {
    if (ask->call.kind == ENGINE_ISSEND || s->options.synchronous || s->options.each) return true;
    const bool is_long = ask->length > s->options.buffered;
    if (is_long) s->has_long = true;
    return is_long;
}

static void begin_send(struct steps *s, int rank, const struct explorer_ask *ask, const uint8_t *bytes) {
    struct rank *own = &s->ranks[rank];
    int key = new_operation(own, ask, true);
    struct operation *it = &own->operations[key];
    struct engine_call call = ask->plan == 0 ? ask->call : plan_message(s, rank, &ask->call);
    struct engine_answer answer;
    it->op = ++own->sends;
    it->waits = is_to_wait(s, ask);
    if (it->waits) call.kind = ENGINE_ISSEND;
    call_engine(s, ask->plan != 0, rank, &call, bytes, ask->length, &answer);
    /* The engine ends one at once that goes in a frame. */
    const bool is_kept = !it->waits && ask->length > ENGINE_LEAST_FRAME;
    it->state = answer.kind != ENGINE_STARTED ? OP_FAILED : is_kept ? OP_BUFFERED : OP_POSTED;
    it->number = answer.number;
    it->own = answer.request;
    if (it->state == OP_FAILED) return;
    it->sent_at = log_sent(s, rank, ask);
}

/* No receive of the program's stands in its way. */
static void post_plan_receive(struct steps *s, int rank, struct operation *it) {
    const struct engine_call call = plan_message(s, rank, &it->call);
    struct engine_answer answer;
    call_engine(s, true, rank, &call, NULL, 0, &answer);
    it->state = answer.kind == ENGINE_STARTED ? OP_POSTED : OP_FAILED;
    it->number = answer.number;
    it->own = answer.request;
    if (it->state == OP_POSTED) log_plan_taking(s, rank, it);
}

static void begin_receive(struct steps *s, int rank, const struct explorer_ask *ask) {
    struct rank *own = &s->ranks[rank];
    bool is_wild = ask->call.peer == ENGINE_ANY;
    int key = new_operation(own, ask, false);
    own->operations[key].state = is_wild ? OP_WILD : OP_HELD;
    if (is_wild) own->operations[key].op = ++own->ops;
    log_event(s, rank, EVENT_POST, own->operations[key].at, 0);
    if (ask->plan != 0) post_plan_receive(s, rank, &own->operations[key]);
    else if (!begin_late(s, rank, key)) post_receive(s, rank, key, ask->call.peer);
}

static void begin_copy(struct steps *s, int rank, const struct explorer_ask *ask) {
    struct rank *own = &s->ranks[rank];
    const struct members *of = members_of(s, rank, ask->call.communicator);
    const struct plan *plan = plan_of(own, ask->plan);
    const int key = new_operation(own, ask, false);
    own->operations[key].state = OP_COPYING;
    s->has_copies = true;
    if (of != NULL && plan != NULL) log_event(s, rank, EVENT_ENTER, plan->entry, of->name);
}

void begin_operation(struct steps *s, int rank, const struct explorer_ask *ask, const uint8_t *bytes) {
    if (ask->call.kind == ENGINE_DUP) begin_copy(s, rank, ask);
    else if (ask->call.kind == ENGINE_IRECV) begin_receive(s, rank, ask);
    else begin_send(s, rank, ask, bytes);
}

/* ---- cancels ---- */

/* Which of a message and the cancel of its receive comes first is no choice of the search: told once a rank. */
static void tell_cancel(struct steps *s, int rank) {
    struct rank *own = &s->ranks[rank];
    if (own->has_cancelled) return;
    own->has_cancelled = true;
    at_place(note(s, rank, CANCEL_RACES,
                  "rank %d: %s at %%0: whether the message or the cancel comes first is not tried both ways", rank,
                  own->ask.name),
             &own->place);
}

static void cancel_operation(struct steps *s, int rank) {
    struct rank *own = &s->ranks[rank];
    const uint64_t key = own->ask.call.request.key;
    struct operation *it = operation_of(s, rank, key);
    struct engine_answer answer = {.kind = ENGINE_ACCEPTED};
    if (it != NULL && !it->is_send && it->plan == 0) tell_cancel(s, rank);
    if (it != NULL && it->state == OP_POSTED)
        call_engine(s, it->plan != 0, rank, &(struct engine_call){.kind = ENGINE_CANCEL, .request = it->own}, NULL, 0,
                    &answer);
    if (it != NULL && (it->state == OP_WILD || it->state == OP_HELD)) {
        for (int i = 0; i < own->late_count; i++)
            if (own->late[i] == (int)key) remove_late(s, rank, i);
        it->state = OP_CANCELLED;
    }
    give(s, rank, &answer);
}

/* It waits until nobody else goes on, so that it doesn't hang on which process is faster what is cancelled: a message
 * comes first where it is there by then. */
void begin_cancel(struct steps *s, int rank) {
    s->ranks[rank].state = RANK_BLOCKED;
    s->ranks[rank].is_cancelling = true;
}

bool cancel_all(struct steps *s) {
    bool has_cancelled = false;
    for (int rank = 0; rank < s->options.size; rank++) {
        struct rank *own = &s->ranks[rank];
        if (own->state != RANK_BLOCKED || !own->is_cancelling) continue;
        own->is_cancelling = false;
        cancel_operation(s, rank);
        has_cancelled = true;
    }
    return has_cancelled;
}

/* ---- ends ---- */

bool is_done(struct steps *s, int rank, uint64_t key) {
    if (key == EXPLORER_ENDED || key == EXPLORER_MADE) return true;
    if (key == EXPLORER_OPEN) return false;
    const struct operation *it = operation_of(s, rank, key);
    if (it == NULL) return true;
    if (it->state == OP_WILD || it->state == OP_HELD || it->state == OP_COPYING) return false;
    if (s->options.synchronous && it->plan != 0 && !has_met(s, rank, it->plan)) return false;
    if (it->state != OP_POSTED) return true;
    struct engine_answer look;
    engines_call(it->plan != 0 ? s->plan_engines : s->engines, rank,
                 &(struct engine_call){.kind = ENGINE_LOOK, .request = it->own}, (const uint8_t *)"", 0, &look);
    return look.kind != ENGINE_FACT || look.fact == 1;
}

bool is_entry_done(struct steps *s, int rank, const struct explorer_entry *entry) {
    return is_done(s, rank, entry->key) && is_done(s, rank, entry->other);
}

bool has_moved_on(struct steps *s, int rank) {
    const struct rank *own = &s->ranks[rank];
    bool has_moved = false;
    for (int key = 0; key < own->operation_count; key++) {
        struct operation *it = &own->operations[key];
        if (it->state == OP_NONE || !it->is_looked_at || !is_done(s, rank, (uint64_t)key)) continue;
        it->is_looked_at = false;
        has_moved = true;
    }
    return has_moved;
}

/* Lets go what the engines have of sends that were buffered, where they are received. */
static void drop_rests(struct steps *s, int rank) {
    struct rank *own = &s->ranks[rank];
    int kept = 0;
    for (int i = 0; i < own->rest_count; i++) {
        struct engine_answer answer;
        const struct engine_call test = {.kind = ENGINE_TEST, .request = own->rests[i].own};
        engines_call(own->rests[i].is_of_plan ? s->plan_engines : s->engines, rank, &test, (const uint8_t *)"", 0,
                     &answer);
        if (answer.kind == ENGINE_PENDING) own->rests[kept++] = own->rests[i];
    }
    own->rest_count = kept;
}

/* A send that was buffered is over for its rank. They are looked at each time they are twice as many as were left. */
static void keep_rest(struct steps *s, int rank, const struct operation *it) {
    enum { FEW = 32 };
    struct rank *own = &s->ranks[rank];
    size_t room = (size_t)own->rest_room;
    own->rests = one_more(own->rests, (size_t)own->rest_count, &room, sizeof *own->rests);
    own->rest_room = (int)room;
    own->rests[own->rest_count++] = (struct rest){it->plan != 0, it->own};
    if (own->rest_count < own->rest_bound || own->rest_count < FEW) return;
    drop_rests(s, rank);
    own->rest_bound = 2 * own->rest_count;
}

static void end_copy(struct steps *s, int rank, struct operation *it, struct engine_answer *answer) {
    const struct members *of = members_of(s, rank, it->call.communicator);
    const struct plan *plan = plan_of(&s->ranks[rank], it->plan);
    *answer = (struct engine_answer){.kind = ENGINE_LEFT, .communicator = it->made};
    if (of != NULL && plan != NULL) log_event(s, rank, EVENT_LEAVE, plan->entry, of->name);
    it->state = OP_NONE;
}

void end_operation(struct steps *s, int rank, struct operation *it, struct engine_answer *answer) {
    if (it->state == OP_COPIED) {
        end_copy(s, rank, it, answer);
        return;
    }
    const struct engine_call test = {.kind = ENGINE_TEST, .request = it->own};
    if (it->state == OP_CANCELLED) answer->outcome = ENGINE_CANCELLED;
    else if (it->state == OP_BUFFERED) answer->outcome = ENGINE_SENT, keep_rest(s, rank, it);
    else if (it->state == OP_FAILED) *answer = (struct engine_answer){.kind = ENGINE_REFUSED, .number = it->number};
    else call_engine(s, it->plan != 0, rank, &test, NULL, 0, answer);
    if (!it->is_send) log_event(s, rank, EVENT_END, it->at, 0);
    else if (it->state == OP_POSTED && it->waits && it->sent_at != NOT_SENT)
        log_event(s, rank, EVENT_SEND_END, it->sent_at, 0);
    it->state = OP_NONE;
}
