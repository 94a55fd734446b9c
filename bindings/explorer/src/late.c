/* Receives that a rank began and that no engine knows yet. Which of them wait, and for which messages, the explorer's
 * static library decides (choices.h); see state.h. */
#include "choices.h"
#include "state.h"

#include <stdlib.h>
#include <string.h>

bool do_tags_meet(int32_t a, int32_t b) { return a == ENGINE_ANY || b == ENGINE_ANY || a == b; }

bool is_wanted(const struct steps *s, int rank, const struct engine_answer *message, uint32_t communicator) {
    return kombazily_choices_is_wanted(s->options.choices, (uint16_t)rank, communicator, (uint32_t)message->source,
                                       (uint32_t)message->tag);
}

bool is_wanted_before(const struct steps *s, int rank, const struct operation *it,
                      const struct engine_answer *message) {
    return kombazily_choices_is_wanted_before(s->options.choices, (uint16_t)rank, it->at, it->call.communicator,
                                              (uint32_t)message->source, (uint32_t)message->tag);
}

bool begin_late(struct steps *s, int rank, int operation) {
    struct rank *own = &s->ranks[rank];
    const struct operation *it = &own->operations[operation];
    uint32_t waits = kombazily_choices_begin(s->options.choices, (uint16_t)rank, it->at, it->call.communicator,
                                             (uint32_t)it->call.peer, (uint32_t)it->call.tag);
    if (waits > 1) give_up("no memory");
    if (waits == 0) return false;
    size_t room = (size_t)own->late_room;
    own->late = one_more(own->late, (size_t)own->late_count, &room, sizeof *own->late);
    own->late_room = (int)room;
    own->late[own->late_count++] = operation;
    return true;
}

void remove_late(struct steps *s, int rank, int place) {
    struct rank *own = &s->ranks[rank];
    size_t behind = (size_t)(--own->late_count - place);
    kombazily_choices_take(s->options.choices, (uint16_t)rank, own->operations[own->late[place]].at);
    memmove(own->late + place, own->late + place + 1, behind * sizeof *own->late);
}

int late_place(const struct rank *own, uint32_t op) {
    for (int i = 0; i < own->late_count; i++)
        if (own->operations[own->late[i]].op == op && own->operations[own->late[i]].state == OP_WILD) return i;
    return -1;
}

bool post_receive(struct steps *s, int rank, int operation, int32_t source) {
    struct rank *own = &s->ranks[rank];
    struct operation *it = &own->operations[operation];
    struct engine_call call = it->call;
    struct engine_answer answer;
    call.peer = source;
    call_rank(s, rank, &call, NULL, 0, &answer);
    if (answer.kind != ENGINE_STARTED) {
        it->state = OP_FAILED;
        it->number = answer.number;
        return false;
    }
    it->own = answer.request;
    it->state = OP_POSTED;
    log_taking(s, rank, it->at, &it->call, source, false, &it->place);
    drop_pin(own, &it->call, source);
    return true;
}

struct engine_answer found_by(struct steps *s, int rank, const struct engine_call *call, int32_t source) {
    const struct engine_call probe = {
        .kind = ENGINE_IPROBE, .communicator = call->communicator, .peer = source, .tag = call->tag};
    return ask_rank(s, rank, probe);
}

/* Whether a receive that may take the message of one before it has one of its own, which none before it wants. */
static bool has_own_message(struct steps *s, int rank, const struct operation *it) {
    const struct engine_answer found = found_by(s, rank, &it->call, it->call.peer);
    return found.kind == ENGINE_PROBED && !is_wanted_before(s, rank, it, &found);
}

static bool has_to_wait(struct steps *s, int rank, const struct operation *it) {
    return kombazily_choices_is_behind(s->options.choices, (uint16_t)rank, it->at) && !has_own_message(s, rank, it);
}

bool post_held(struct steps *s, int rank) {
    struct rank *own = &s->ranks[rank];
    bool has_posted = false;
    if (own->is_in_engine) return false;
    for (int i = 0; i < own->late_count; i++) {
        int operation = own->late[i];
        const struct operation *it = &own->operations[operation];
        if (it->state != OP_HELD || has_to_wait(s, rank, it)) continue;
        remove_late(s, rank, i--);
        post_receive(s, rank, operation, own->operations[operation].call.peer);
        has_posted = true;
    }
    return has_posted;
}
