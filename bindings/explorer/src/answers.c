/* Answers to ranks: see state.h. */
#include "state.h"

#include <stdlib.h>
#include <string.h>

static const uint8_t no_bytes[1];

void *room_for(void *old, size_t count, size_t each) {
    void *made = realloc(old, count * each > 0 ? count * each : 1);
    if (made == NULL) give_up("no memory");
    return made;
}

void *one_more(void *row, size_t count, size_t *room, size_t each) {
    if (count < *room) return row;
    *room = *room == 0 ? 32 : 2 * *room;
    return room_for(row, *room, each);
}

void call_engine(struct steps *s, bool is_plan, int rank, const struct engine_call *call, const uint8_t *bytes,
                 size_t length, struct engine_answer *answer) {
    s->answering = is_plan ? s->plan_engines : s->engines;
    engines_call(s->answering, rank, call, bytes == NULL ? no_bytes : bytes, length, answer);
    s->calls++;
}

void call_rank(struct steps *s, int rank, const struct engine_call *call, const uint8_t *bytes, size_t length,
               struct engine_answer *answer) {
    call_engine(s, false, rank, call, bytes, length, answer);
}

struct engine_answer ask_rank(struct steps *s, int rank, struct engine_call call) {
    struct engine_answer answer;
    engines_call(s->engines, rank, &call, no_bytes, 0, &answer);
    return answer;
}

static void need_data(struct rank *own, size_t room) {
    if (room <= own->data_room) return;
    own->data = room_for(own->data, room, 1);
    own->data_room = room;
}

/* The rank goes on with this answer, whose data are there. */
static void let_go(struct steps *s, int rank, const struct engine_answer *answer) {
    struct rank *own = &s->ranks[rank];
    own->answer = (struct explorer_answer){.answer = *answer};
    own->is_answered = true;
    own->state = RANK_RUNS;
    s->rounds_of_no = 0;
}

void give(struct steps *s, int rank, const struct engine_answer *answer) {
    struct rank *own = &s->ranks[rank];
    need_data(own, answer->bytes);
    if (answer->bytes > 0) engines_take(s->answering, rank, own->data, answer->bytes);
    let_go(s, rank, answer);
}

void give_fact(struct steps *s, int rank, uint64_t fact) {
    let_go(s, rank, &(struct engine_answer){.kind = ENGINE_FACT, .fact = fact});
}

void give_places(struct steps *s, int rank, const uint32_t *places, uint32_t count) {
    struct rank *own = &s->ranks[rank];
    give_fact(s, rank, count > 0);
    own->places = room_for(own->places, count, sizeof *places);
    if (count > 0) memcpy(own->places, places, count * sizeof *places);
    own->answer.count = count;
}

/* How a request ended, which then is no more. What isn't one is at its end. */
static struct engine_answer end_of(struct steps *s, int rank, uint64_t key) {
    struct engine_answer answer = {.kind = ENGINE_DONE, .outcome = ENGINE_EMPTY};
    struct operation *it = operation_of(s, rank, key);
    if (it != NULL) end_operation(s, rank, it, &answer);
    return answer;
}

void give_end(struct steps *s, int rank, uint64_t key) {
    const struct engine_answer answer = end_of(s, rank, key);
    give(s, rank, &answer);
}

void give_all_ends(struct steps *s, int rank) {
    struct rank *own = &s->ranks[rank];
    size_t length = 0;
    for (uint32_t i = 0; i < own->ask.count; i++) {
        if (own->entries[i].key >= EXPLORER_MADE) continue;
        const struct engine_answer answer = end_of(s, rank, own->entries[i].key);
        size_t needed = length + sizeof answer + answer.bytes;
        if (needed > own->data_room) need_data(own, 2 * needed);
        memcpy(own->data + length, &answer, sizeof answer);
        length += sizeof answer;
        if (answer.bytes > 0) engines_take(s->answering, rank, own->data + length, answer.bytes);
        length += answer.bytes;
    }
    let_go(s, rank, &(struct engine_answer){.kind = ENGINE_FACT, .fact = 1, .bytes = length});
}

int steps_answered(struct steps *s, const struct explorer_answer **answer, const uint32_t **places,
                   const uint8_t **bytes) {
    for (int rank = 0; rank < s->options.size; rank++) {
        struct rank *own = &s->ranks[rank];
        if (!own->is_answered) continue;
        own->is_answered = false;
        *answer = &own->answer;
        *places = own->places;
        *bytes = own->data;
        return rank;
    }
    return -1;
}
