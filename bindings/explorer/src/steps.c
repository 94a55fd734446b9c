/* What ranks ask, and how they go on as long as nothing is open: see steps.h. */
#include "state.h"

#include <stdlib.h>
#include <string.h>

struct steps *steps_new(const struct steps_options *options) {
    struct steps *s = calloc(1, sizeof *s);
    if (s == NULL) abort();
    s->options = *options;
    s->ranks = calloc((size_t)options->size, sizeof *s->ranks);
    s->engines = engines_new(options->size);
    for (int rank = 0; rank < options->size; rank++) {
        learn_members(s, rank, ENGINE_WORLD, 1);
        learn_members(s, rank, ENGINE_SELF, 2 + (uint64_t)rank);
    }
    return s;
}

static void free_rank(struct rank *own) {
    for (int i = 0; i < own->members_count; i++) free(own->members[i].of);
    free(own->members);
    free(own->operations);
    free(own->late);
    free(own->entries);
    free(own->bytes);
    free(own->places);
    free(own->data);
    free(own->pins);
    free(own->takings);
    free(own->plans);
    free_made(own);
    free(own->series);
    free(own->rests);
}

void steps_free(struct steps *s) {
    for (int rank = 0; rank < s->options.size; rank++) free_rank(&s->ranks[rank]);
    engines_free(s->engines);
    if (s->plan_engines != NULL) engines_free(s->plan_engines);
    free(s->plan_names);
    free(s->ranks);
    free(s->findings);
    free(s->sent);
    free(s->events);
    free_meetings(s);
    free(s);
}

/* ---- asks ---- */

/* Whether a rank asks this as often as it is served, which is left to chance: it is no call of the program's. */
static bool is_turn(const struct explorer_ask *ask) {
    const uint32_t kind = ask->call.kind;
    bool is_look_inside = ask->kind == ASK_CALL && (kind == ENGINE_LOOK || kind == ENGINE_TEST);
    bool is_of_plan = ask->plan != 0 && ask->kind != ASK_ENTER;
    return is_look_inside || is_of_plan || ask->kind == ASK_PAUSE || ask->kind == ASK_KEPT || ask->kind == ASK_MISUSE;
}

/* Keeps the ask, and what stands behind it. */
static void keep_ask(struct rank *own, const struct explorer_ask *ask, const uint64_t *frames,
                     const struct explorer_entry *entries, const uint8_t *bytes) {
    own->ask = *ask;
    own->calls = ask->calls;
    if (!is_turn(ask)) own->asks++;
    own->place = (struct place){.count = ask->frame_count, .number = own->asks};
    memcpy(own->place.name, ask->name, sizeof own->place.name);
    if (ask->frame_count > 0) memcpy(own->place.frames, frames, ask->frame_count * sizeof *frames);
    own->entries = room_for(own->entries, ask->count, sizeof *entries);
    if (ask->count > 0) memcpy(own->entries, entries, ask->count * sizeof *entries);
    if (ask->kind == ASK_POST || ask->length == 0) return;
    own->bytes = room_for(own->bytes, ask->length, 1);
    memcpy(own->bytes, bytes, ask->length);
}

static void answer_receive(struct steps *s, int rank) {
    struct rank *own = &s->ranks[rank];
    struct engine_answer answer;
    call_rank(s, rank, &own->ask.call, NULL, 0, &answer);
    if (answer.kind != ENGINE_BLOCKED) give(s, rank, &answer);
    else own->state = RANK_BLOCKED, own->is_in_engine = true;
}

static void answer_look(struct steps *s, int rank, uint64_t key) {
    struct operation *it = operation_of(s, rank, key);
    bool is_at_end = is_done(s, rank, key);
    const int rounds = s->rounds_of_no;
    if (it != NULL) it->is_looked_at = !is_at_end;
    give_fact(s, rank, is_at_end);
    if (!is_at_end) s->rounds_of_no = rounds;
}

/* A test that the library makes by itself, behind a look that said yes. */
static void answer_test(struct steps *s, int rank, uint64_t key) {
    if (is_done(s, rank, key)) give_end(s, rank, key);
    else give(s, rank, &(struct engine_answer){.kind = ENGINE_PENDING});
}

static void ask_call(struct steps *s, int rank) {
    struct rank *own = &s->ranks[rank];
    const struct engine_call *call = &own->ask.call;
    struct engine_answer answer;
    if (is_collective(call->kind)) {
        begin_collective(s, rank);
        return;
    }
    switch (call->kind) {
    case ENGINE_CANCEL:
        begin_cancel(s, rank);
        return;
    case ENGINE_LOOK:
        answer_look(s, rank, call->request.key);
        return;
    case ENGINE_TEST:
        answer_test(s, rank, call->request.key);
        return;
    case ENGINE_MRECV:
        answer_receive(s, rank);
        return;
    default:
        call_rank(s, rank, call, own->bytes, own->ask.length, &answer);
        give(s, rank, &answer);
    }
}

/* What was told may be the end of its rank, and of the job; else the rank goes on. */
static void heed(struct steps *s, int rank, enum finding_kind kind) {
    const bool ends = kombazily_finding_ends_job(kind, s->options.goes_on);
    if (kombazily_finding_fails(kind)) s->ranks[rank].has_failed = true;
    if (ends) s->is_aborted = true;
    give_fact(s, rank, !ends);
}

static void ask_error(struct steps *s, int rank) {
    struct rank *own = &s->ranks[rank];
    const enum finding_kind kind = own->ask.kind == ASK_ERROR ? CALL_FAILED : ERROR_RETURNED;
    struct finding *it = note(s, rank, kind, "rank %d: %s %%0: %s: %.*s", rank,
                              kind == CALL_FAILED ? "error at" : "an error was returned at", own->ask.name,
                              (int)own->ask.length, (const char *)own->bytes);
    at_place(it, &own->place);
    heed(s, rank, kind);
}

static void ask_unsupported(struct steps *s, int rank) {
    struct rank *own = &s->ranks[rank];
    at_place(note(s, rank, CANT_EXPLORE, "rank %d: can't be explored: %s at %%0: %.*s", rank, own->ask.name,
                  (int)own->ask.length, (const char *)own->bytes),
             &own->place);
    s->is_unexplored = true;
    heed(s, rank, CANT_EXPLORE);
}

static void ask_abort(struct steps *s, int rank) {
    struct rank *own = &s->ranks[rank];
    at_place(note(s, rank, ABORTED, "rank %d called MPI_Abort with code %d at %%0", rank, own->ask.call.order),
             &own->place);
    heed(s, rank, ABORTED);
}

/* Takes what is answered by nothing: whether it is that. */
static bool take_note(struct steps *s, int rank, const uint8_t *bytes) {
    const struct explorer_ask *ask = &s->ranks[rank].ask;
    switch (ask->kind) {
    case ASK_POST:
        begin_operation(s, rank, ask, bytes);
        return true;
    case ASK_MADE:
        note_made(s, rank);
        return true;
    case ASK_FREED:
        note_freed(s, rank);
        return true;
    case ASK_ENTER:
        begin_plan(s, rank);
        return true;
    default:
        return false;
    }
}

void steps_ask(struct steps *s, int rank, const struct explorer_ask *ask, const uint64_t *frames,
               const struct explorer_entry *entries, const uint8_t *bytes) {
    struct rank *own = &s->ranks[rank];
    keep_ask(own, ask, frames, entries, bytes);
    if (take_note(s, rank, bytes)) return;
    switch (ask->kind) {
    case ASK_CALL:
        ask_call(s, rank);
        return;
    case ASK_ERROR:
    case ASK_RETURNED:
        ask_error(s, rank);
        return;
    case ASK_UNSUPPORTED:
        ask_unsupported(s, rank);
        return;
    case ASK_ABORT:
        ask_abort(s, rank);
        return;
    case ASK_KEPT:
        answer_kept(s, rank);
        return;
    case ASK_MISUSE:
        note_misuse(s, rank);
        return;
    case ASK_FINALIZE:
        tell_left(s, rank, own->bytes);
        own->is_finalized = true;
        break;
    default:
        break;
    }
    own->state = RANK_BLOCKED;
    if (is_list(ask->kind) || ask->kind == ASK_PROBE) own->ask_op = ++own->ops, own->ask_at = ++own->begun;
}

void steps_gone(struct steps *s, int rank) {
    s->ranks[rank].state = RANK_ENDED;
    s->ranks[rank].is_answered = false;
}

/* ---- progress ---- */

static bool do_all_finalize(const struct steps *s) {
    for (int rank = 0; rank < s->options.size; rank++)
        if (s->ranks[rank].state != RANK_ENDED && !s->ranks[rank].is_finalized) return false;
    return true;
}

static bool are_all_done(struct steps *s, int rank) {
    const struct rank *own = &s->ranks[rank];
    for (uint32_t i = 0; i < own->ask.count; i++)
        if (own->entries[i].key != EXPLORER_NULL && !is_entry_done(s, rank, &own->entries[i])) return false;
    return true;
}

/* A rank in a collective, or in the receive of a message that was taken out. */
static bool go_on_in_call(struct steps *s, int rank) {
    struct rank *own = &s->ranks[rank];
    if (own->is_held && !has_copies(own, 0, true) && are_all_there(s, rank)) {
        enter_collective(s, rank);
        return true;
    }
    if (!own->is_in_engine) return false;
    struct engine_answer answer;
    const struct engine_call finish = {.kind = ENGINE_FINISH};
    call_rank(s, rank, &finish, NULL, 0, &answer);
    if (answer.kind == ENGINE_PENDING || answer.kind == ENGINE_REFUSED) {
        s->calls--;
        return false;
    }
    finish_collective(s, rank, &answer);
    return true;
}

/* Answers a rank whose answer isn't open: whether it did. */
static bool answer_rank(struct steps *s, int rank) {
    const struct explorer_ask *ask = &s->ranks[rank].ask;
    const uint64_t key = ask->call.request.key;
    switch (ask->kind) {
    case ASK_WAIT:
        if (!is_done(s, rank, key)) return false;
        give_end(s, rank, key);
        return true;
    case ASK_WAITALL:
        if (!are_all_done(s, rank)) return false;
        give_all_ends(s, rank);
        return true;
    case ASK_CALL:
        return go_on_in_call(s, rank);
    case ASK_PAUSE:
        if (!has_moved_on(s, rank)) return false;
        give_fact(s, rank, 0);
        return true;
    case ASK_FINALIZE:
        if (!do_all_finalize(s)) return false;
        give_fact(s, rank, 0);
        return true;
    case ASK_PROBE:
        return answer_sure_probe(s, rank);
    default:
        return answer_sure_look(s, rank);
    }
}

static bool go_on(struct steps *s, int rank) {
    struct rank *own = &s->ranks[rank];
    if (own->state != RANK_BLOCKED) return false;
    bool has_posted = own->late_count > 0 && post_held(s, rank);
    return answer_rank(s, rank) || has_posted;
}

void steps_progress(struct steps *s) {
    bool has_gone_on;
    do {
        engines_settle(s->engines);
        if (s->plan_engines != NULL) engines_settle(s->plan_engines);
        has_gone_on = s->has_copies && make_copies(s);
        for (int rank = 0; rank < s->options.size; rank++) has_gone_on |= go_on(s, rank);
    } while (has_gone_on);
}

/* ---- where the ranks are ---- */

bool steps_is_running(const struct steps *s, int rank) { return s->ranks[rank].state == RANK_RUNS; }
bool steps_has_failed(const struct steps *s, int rank) { return s->ranks[rank].has_failed; }
bool steps_has_finalized(const struct steps *s, int rank) { return s->ranks[rank].is_finalized; }
uint64_t steps_calls(const struct steps *s) { return s->calls; }

bool steps_withheld(const struct steps *s) { return s->has_withheld; }

bool steps_kept(const struct steps *s) { return s->has_kept; }
bool steps_left_parts(const struct steps *s) { return s->has_parts; }

bool steps_sent_long(const struct steps *s) { return s->has_long; }

bool steps_cancelled(const struct steps *s) {
    for (int rank = 0; rank < s->options.size; rank++)
        if (s->ranks[rank].has_cancelled) return true;
    return false;
}

enum ending steps_ending(const struct steps *s) {
    bool has_ended[MOST_RANKS] = {false};
    for (int rank = 0; rank < s->options.size; rank++) has_ended[rank] = s->ranks[rank].state == RANK_ENDED;
    return kombazily_ending_of_ranks(s->is_unexplored, s->is_aborted, has_ended, (size_t)s->options.size);
}
