/* Moves: what may be decided next, and what becomes of it. See steps.h. */
#include "choices.h"
#include "state.h"

#include <stdlib.h>
#include <string.h>

bool is_same_move(const struct move *a, const struct move *b) {
    return a->kind == b->kind && a->rank == b->rank && a->op == b->op && a->at == b->at;
}

/* ---- which there are: what stands where no rank runs is told, and the static library decides (choices.h) ---- */

/* Whether a look is kept from saying no. */
static bool is_told(uint32_t number) {
    if (number > 1) give_up("no memory");
    return number == 1;
}

/* What the messages of all sources make possible of receives of any source: also where a probe saw a message, since a
 * receive of any source may take another one (MPI 3.1, 3.8.1). The static library has the receives in its row. */
static void ask_receives(struct steps *s, int rank) {
    const struct rank *own = &s->ranks[rank];
    if (own->late_count == 0 || own->is_in_engine || own->state == RANK_ENDED || own->is_finalized) return;
    const size_t count = (size_t)own->late_count;
    uint32_t *ops = room_for(NULL, count, sizeof *ops), *sources = room_for(NULL, count, sizeof *sources);
    for (size_t i = 0; i < count; i++) {
        const struct operation *it = &own->operations[own->late[i]];
        const struct members *of = members_of(s, rank, it->call.communicator);
        ops[i] = it->op;
        sources[i] = of == NULL ? 0 : (uint32_t)of->size;
    }
    engines_add_matches(s->engines, s->options.choices, rank, ops, sources, count);
    free(ops);
    free(sources);
}

/* The places of a list that are at their ends: how many. */
static uint32_t ended_places(struct steps *s, int rank, uint32_t *places) {
    uint32_t count = 0;
    for (uint32_t i = 0; i < s->ranks[rank].ask.count; i++) {
        const struct explorer_entry *entry = &s->ranks[rank].entries[i];
        if (entry->key != EXPLORER_NULL && is_entry_done(s, rank, entry)) places[count++] = i;
    }
    return count;
}

static bool ends_some(const struct rank *own) { return own->ask.kind == ASK_WAITSOME || own->ask.kind == ASK_TESTSOME; }

static void tell_list(struct steps *s, int rank) {
    const struct rank *own = &s->ranks[rank];
    uint32_t *places = room_for(NULL, own->ask.count, sizeof *places), live = 0;
    for (uint32_t i = 0; i < own->ask.count; i++) live += own->entries[i].key != EXPLORER_NULL;
    const uint32_t count = ended_places(s, rank, places);
    if (is_told(kombazily_choices_add_list(s->options.choices, (uint16_t)rank, own->ask_op, (uint32_t)own->noes,
                                           (uint32_t)s->options.patience, own->ask.kind, live, places, count)))
        s->has_withheld = true;
    free(places);
}

static void tell_probe(struct steps *s, int rank) {
    const struct rank *own = &s->ranks[rank];
    const struct engine_call *call = &own->ask.call;
    const struct members *of = members_of(s, rank, call->communicator);
    if (of != NULL) engines_add_sights(s->engines, s->options.choices, rank, own->ask_op, call, of->size);
    /* What one probe saw the next one sees again. */
    if (own->ask.is_waiting || pin_for(own, call, false) != NULL) return;
    if (is_told(kombazily_choices_add_no(s->options.choices, (uint16_t)rank, own->ask_op, (uint32_t)own->noes,
                                         (uint32_t)s->options.patience)))
        s->has_withheld = true;
}

/* A send for which a rank waits or of which it asks, and that may be buffered after all. */
static void tell_send(struct steps *s, int rank, uint64_t key) {
    const struct operation *it = key >= EXPLORER_OPEN ? NULL : operation_of(s, rank, key);
    if (it != NULL && it->is_send && it->state == OP_POSTED && it->call.kind == ENGINE_ISEND && !is_done(s, rank, key))
        (void)is_told(
            kombazily_choices_add_buffer(s->options.choices, (uint16_t)rank, it->op, (uint32_t)it->call.peer));
}

static void tell_sends(struct steps *s, int rank) {
    const struct rank *own = &s->ranks[rank];
    if (!s->options.each || own->state != RANK_BLOCKED || own->is_finalized) return;
    if (own->ask.kind == ASK_WAIT) tell_send(s, rank, own->ask.call.request.key);
    if (own->ask.kind == ASK_PAUSE)
        for (int key = 0; key < own->operation_count; key++)
            if (own->operations[key].is_looked_at) tell_send(s, rank, (uint64_t)key);
    for (uint32_t i = 0; i < own->ask.count; i++) {
        tell_send(s, rank, own->entries[i].key);
        tell_send(s, rank, own->entries[i].other);
    }
}

/* Whether a rank stays in a call that makes a communicator, which MPI lets it leave before all are there (3.1, 5.1). */
static bool is_kept(const struct steps *s, const struct rank *own) {
    if (s->options.synchronous || own->state != RANK_BLOCKED || own->is_finalized) return false;
    return own->ask.kind == ASK_CALL && (own->ask.call.kind == ENGINE_DUP || own->ask.call.kind == ENGINE_SPLIT);
}

/* Tells what stands at this fence, and takes the moves there. */
static int moves_here(struct steps *s, struct move *moves, int room) {
    int count = 0;
    kombazily_choices_clear(s->options.choices);
    for (int rank = 0; rank < s->options.size; rank++) {
        const struct rank *own = &s->ranks[rank];
        ask_receives(s, rank);
        if (own->state == RANK_BLOCKED && is_list(own->ask.kind)) tell_list(s, rank);
        if (own->state == RANK_BLOCKED && own->ask.kind == ASK_PROBE) tell_probe(s, rank);
        tell_sends(s, rank);
        if (is_kept(s, own)) s->has_kept = true;
    }
    for (struct move *m = moves; count < room; m++, count++) {
        if (!kombazily_choices_move(s->options.choices, (size_t)count, &m->kind, &m->rank, &m->op, &m->at)) break;
        if (m->kind == MOVE_PLACE && ends_some(&s->ranks[m->rank])) s->has_parts = true;
    }
    return count;
}

/* Enters collectives that were held back for receives of any source, where nothing else can go on. */
static bool enter_held(struct steps *s) {
    bool has_entered = false;
    for (int rank = 0; rank < s->options.size; rank++) {
        const struct rank *own = &s->ranks[rank];
        if (own->state != RANK_BLOCKED || !own->is_held) continue;
        if (has_copies(own, own->ask.call.communicator, false)) continue;
        enter_collective(s, rank);
        has_entered = true;
    }
    return has_entered;
}

static bool is_any_running(const struct steps *s) {
    for (int rank = 0; rank < s->options.size; rank++)
        if (s->ranks[rank].state == RANK_RUNS) return true;
    return false;
}

int steps_moves(struct steps *s, struct move *moves, int room) {
    if (cancel_all(s)) return -1;
    const int count = moves_here(s, moves, room);
    if (s->options.each) tell_unsafe(s, moves, count);
    if (count > 0 || s->options.synchronous || !enter_held(s)) return count;
    steps_progress(s);
    return is_any_running(s) ? -1 : steps_moves(s, moves, room);
}

bool steps_is_early(struct steps *s, int place) {
    return kombazily_choices_is_early(s->options.choices, (size_t)place);
}

/* ---- taking one ---- */

struct operation *send_of(struct steps *s, const struct move *move) {
    struct rank *own = &s->ranks[move->rank];
    for (int key = 0; key < own->operation_count; key++) {
        struct operation *it = &own->operations[key];
        if (it->state == OP_POSTED && it->is_send && it->op == move->op) return it;
    }
    return NULL;
}

static void take_match(struct steps *s, const struct move *move) {
    struct rank *own = &s->ranks[move->rank];
    int place = late_place(own, move->op);
    int operation = own->late[place];
    remove_late(s, (int)move->rank, place);
    post_receive(s, (int)move->rank, operation, (int32_t)move->at);
}

static void take_place(struct steps *s, const struct move *move) {
    struct rank *own = &s->ranks[move->rank];
    const uint32_t place = move->at;
    own->noes = 0;
    if (ends_some(own)) {
        give_places(s, (int)move->rank, &place, 1);
        return;
    }
    give_fact(s, (int)move->rank, 1);
    own->answer.place = place;
}

static void take_all(struct steps *s, const struct move *move) {
    struct rank *own = &s->ranks[move->rank];
    uint32_t *places = room_for(NULL, own->ask.count, sizeof *places);
    const uint32_t count = ended_places(s, (int)move->rank, places);
    own->noes = 0;
    give_places(s, (int)move->rank, places, count);
    free(places);
}

/* The places of the part of this number: of those that are at their ends, few enough that each part is a move. */
static uint32_t part_places(struct steps *s, int rank, uint32_t number, uint32_t *places) {
    enum { MOST = 31 };
    const uint64_t factor = 1000003, modulus = 2147483647;
    uint32_t *all = room_for(NULL, s->ranks[rank].ask.count, sizeof *all), count = 0;
    const uint32_t ended = ended_places(s, rank, all);
    for (uint32_t part = 1; ended <= MOST && count == 0 && part >> ended == 0; part++) {
        uint64_t sum = 1;
        for (uint32_t i = 0; i < ended; i++)
            if (part >> i & 1) sum = (sum * factor + all[i] + 1) % modulus;
        for (uint32_t i = 0; sum == number && i < ended; i++)
            if (part >> i & 1) places[count++] = all[i];
    }
    free(all);
    if (count == 0) give_up("a part of a list is lost");
    return count;
}

static void take_part(struct steps *s, const struct move *move) {
    struct rank *own = &s->ranks[move->rank];
    uint32_t *places = room_for(NULL, own->ask.count, sizeof *places);
    const uint32_t count = part_places(s, (int)move->rank, move->at, places);
    own->noes = 0;
    give_places(s, (int)move->rank, places, count);
    free(places);
}

static void say_no(struct steps *s, int rank) {
    if (s->ranks[rank].ask.kind == ASK_PROBE) give(s, rank, &(struct engine_answer){.kind = ENGINE_NOTHING});
    else give_fact(s, rank, 0);
}

void steps_take(struct steps *s, struct move move) {
    struct rank *own = &s->ranks[move.rank];
    struct operation *send = move.kind == MOVE_BUFFER ? send_of(s, &move) : NULL;
    switch (move.kind) {
    case MOVE_MATCH:
        take_match(s, &move);
        break;
    case MOVE_SEE:
        give_probe(s, (int)move.rank, (int32_t)move.at);
        break;
    case MOVE_PLACE:
        take_place(s, &move);
        break;
    case MOVE_ALL:
        take_all(s, &move);
        break;
    case MOVE_PART:
        take_part(s, &move);
        break;
    case MOVE_BUFFER:
        if (send != NULL) send->state = OP_BUFFERED;
        break;
    case MOVE_TRUE:
        own->noes = 0;
        give_fact(s, (int)move.rank, 1);
        break;
    default:
        own->noes++;
        say_no(s, (int)move.rank);
    }
}

bool steps_say_no(struct steps *s) {
    const int size = s->options.size, rounds = s->rounds_of_no;
    bool asks[MOST_RANKS] = {false};
    for (int rank = 0; rank < size; rank++) asks[rank] = is_look(&s->ranks[rank]);
    if (kombazily_is_stuck(asks, (size_t)size, (uint32_t)rounds)) return false;
    for (int rank = 0; rank < size; rank++)
        if (asks[rank]) say_no(s, rank);
    s->rounds_of_no = rounds + 1;
    return true;
}

/* ---- words ---- */

/* `request 1`, or `requests 0 and 2`. */
static void say_part(struct steps *s, const struct move *move, char *into, size_t room) {
    uint32_t *places = room_for(NULL, s->ranks[move->rank].ask.count, sizeof *places);
    const uint32_t count = part_places(s, (int)move->rank, move->at, places);
    size_t at = (size_t)snprintf(into, room, "request%s", count == 1 ? "" : "s");
    for (uint32_t i = 0; i < count && at < room; i++)
        at += (size_t)snprintf(into + at, room - at, "%s%u", i == 0 ? " " : i + 1 == count ? " and " : ", ", places[i]);
    free(places);
}

void steps_say_move(struct steps *s, struct move move, char *text, size_t room, struct place *place) {
    const struct rank *own = &s->ranks[move.rank];
    const char *name = own->ask.name;
    char part[120];
    int late = move.kind == MOVE_MATCH ? late_place(own, move.op) : -1;
    const struct operation *send = move.kind == MOVE_BUFFER ? send_of(s, &move) : NULL;
    *place = late >= 0 ? own->operations[own->late[late]].place : send != NULL ? send->place : own->place;
    switch (move.kind) {
    case MOVE_MATCH:
        snprintf(text, room, "rank %u: the receive of any source at %%0 takes rank %d's message", move.rank,
                 late < 0 ? -1
                          : world_rank((struct steps *)s, (int)move.rank,
                                       own->operations[own->late[late]].call.communicator, (int32_t)move.at));
        break;
    case MOVE_SEE:
        snprintf(text, room, "rank %u: %s at %%0 sees rank %d's message", move.rank, name,
                 world_rank(s, (int)move.rank, own->ask.call.communicator, (int32_t)move.at));
        break;
    case MOVE_PLACE:
        snprintf(text, room, "rank %u: %s at %%0 ends request %u of its list", move.rank, name, move.at);
        break;
    case MOVE_PART:
        say_part(s, &move, part, sizeof part);
        snprintf(text, room, "rank %u: %s at %%0 ends %s of its list", move.rank, name, part);
        break;
    case MOVE_ALL:
        snprintf(text, room, "rank %u: %s at %%0 ends all that are at their ends", move.rank, name);
        break;
    case MOVE_BUFFER:
        snprintf(text, room, "rank %u: the send at %%0 is buffered", move.rank);
        break;
    default:
        snprintf(text, room, "rank %u: %s at %%0 says %s", move.rank, name, move.kind == MOVE_TRUE ? "yes" : "no");
    }
}
