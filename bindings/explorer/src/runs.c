/* One run of the program: see shell.h. */
#define _GNU_SOURCE
#include "choices.h"
#include "shell.h"

#include <math.h>
#include <poll.h>
#include <signal.h>
#include <stdlib.h>
#include <string.h>
#include <sys/wait.h>

struct counts counts;

static const struct move *forced;
static int forced_count;

void force_moves(const struct move *moves, int count) {
    forced = moves;
    forced_count = count;
}

/* ---- asks and answers ---- */

/* Rooms for what stands behind an ask. */
static struct {
    uint64_t frames[EXPLORER_FRAMES];
    struct explorer_entry *entries;
    uint8_t *bytes;
    size_t entry_room, byte_room;
} behind;

static void *grown(void *old, size_t *room, size_t count, size_t each) {
    if (count <= *room) return old;
    *room = count;
    void *made = realloc(old, count * each);
    if (made == NULL) fail(STATUS_START, "no memory", "");
    return made;
}

/* Whether some rank has called MPI_Init. */
static bool has_begun;

static void note_start(const struct explorer_ask *ask) {
    has_begun = true;
    if (ask->call.order != EXPLORER_VERSION)
        fail(STATUS_START, "the program is linked with another version of this library: ", set.program[0]);
}

/* Takes in an ask of a rank, whole: whether one came. */
static bool hear(struct steps *s, int rank) {
    struct explorer_ask ask;
    if (!take_in(rank, &ask, sizeof ask) || ask.frame_count > EXPLORER_FRAMES) return false;
    if (ask.kind == ASK_START) {
        note_start(&ask);
        return true;
    }
    ask.name[EXPLORER_NAME - 1] = '\0';
    behind.entries = grown(behind.entries, &behind.entry_room, ask.count, sizeof *behind.entries);
    behind.bytes = grown(behind.bytes, &behind.byte_room, ask.length, 1);
    if (!take_in(rank, behind.frames, ask.frame_count * sizeof *behind.frames)) return false;
    if (!take_in(rank, behind.entries, ask.count * sizeof *behind.entries)) return false;
    if (!take_in(rank, behind.bytes, ask.length)) return false;
    counts.asks++;
    steps_ask(s, rank, &ask, behind.frames, behind.entries, behind.bytes);
    return true;
}

static void answer_all(struct steps *s) {
    const struct explorer_answer *answer;
    const uint32_t *places;
    const uint8_t *bytes;
    int rank;
    while ((rank = steps_answered(s, &answer, &places, &bytes)) >= 0) {
        if (socket_of_rank(rank) < 0) continue;
        bool is_told = put_out(rank, answer, sizeof *answer) && put_out(rank, places, answer->count * sizeof *places) &&
                       put_out(rank, bytes, answer->answer.bytes);
        (void)is_told; /* one that is gone is noticed where it is heard */
    }
}

/* A rank that talks to the explorer no more: how it ended is looked at once all have. */
static void lose_rank(struct steps *s, int rank) {
    close_socket(rank);
    steps_gone(s, rank);
}

/* All that a rank posted, and what it waits for. */
static void hear_all(struct steps *s, int rank) {
    bool is_there;
    do is_there = hear(s, rank);
    while (is_there && has_more(rank));
    if (!is_there) lose_rank(s, rank);
}

static void tell_silent(struct steps *s, const int *who, int count) {
    for (int i = 0; i < count; i++) {
        char text[200];
        snprintf(text, sizeof text, "rank %d computes for %.0f s without a call of MPI", who[i], set.patience);
        steps_note(s, who[i], COMPUTES, text);
    }
}

/* The ranks that run: how many. */
static int running(const struct steps *s, struct pollfd *sockets, int *who) {
    int count = 0;
    for (int rank = 0; rank < set.size; rank++) {
        if (!steps_is_running(s, rank) || socket_of_rank(rank) < 0) continue;
        who[count] = rank;
        sockets[count++] = (struct pollfd){.fd = socket_of_rank(rank), .events = POLLIN};
    }
    return count;
}

static double latest = INFINITY;

void end_runs_at(double time) { latest = time; }

static bool is_over(void) { return now() > latest || asked_to_stop != 0; }

/* So many milliseconds no rank may make a call; without an end where one is debugged. */
static int longest_wait(void) {
    const double left = latest - now();
    if (set.debugged >= 0) return -1;
    return left < set.patience ? (left < 0 ? 0 : (int)(left * 1000) + 1) : (int)(set.patience * 1000);
}

/* ---- where ranks stand when the time is over ---- */

/* For a moment: ranks that run may come to a call. */
static void hear_running(struct steps *s) {
    static const double moment = 0.2;
    const double end = now() + moment;
    while (now() < end) {
        struct pollfd sockets[MOST_RANKS];
        int who[MOST_RANKS], count = running(s, sockets, who), left = 0;
        for (int i = 0; i < count; i++)
            if (!steps_awaits(s, who[i])) sockets[left] = sockets[i], who[left++] = who[i];
        if (left == 0) return;
        (void)poll(sockets, (nfds_t)left, 20);
        for (int i = 0; i < left; i++)
            if (sockets[i].revents != 0) hear_all(s, who[i]);
    }
}

/* Asks a rank that waits for an answer where it stands. */
static void ask_place(struct steps *s, int rank) {
    const struct explorer_answer question = {.wants_place = 1};
    struct explorer_ask ask;
    const bool is_told = put_out(rank, &question, sizeof question) && take_in(rank, &ask, sizeof ask) &&
                         ask.kind == ASK_PLACE && ask.frame_count <= EXPLORER_FRAMES &&
                         take_in(rank, behind.frames, ask.frame_count * sizeof *behind.frames);
    if (is_told) steps_stands(s, rank, &ask, behind.frames);
}

static void tell_stands(struct steps *s) {
    hear_running(s);
    for (int rank = 0; rank < set.size; rank++)
        if (steps_awaits(s, rank) && socket_of_rank(rank) >= 0) ask_place(s, rank);
    steps_tell_stands(s);
}

/* Lets ranks run until each is blocked or has ended: false, one stayed silent for too long, or it is too late. */
static bool run_ranks(struct steps *s) {
    for (;;) {
        struct pollfd sockets[MOST_RANKS];
        int who[MOST_RANKS];
        if (is_over()) return false;
        answer_all(s);
        int count = running(s, sockets, who);
        if (count == 0) {
            steps_progress(s);
            if (running(s, sockets, who) == 0) return true;
            continue;
        }
        const int found = poll(sockets, (nfds_t)count, longest_wait());
        if (found < 0 || (found == 0 && is_over())) continue;
        if (found == 0) {
            tell_silent(s, who, count);
            return false;
        }
        for (int i = 0; i < count; i++)
            if (sockets[i].revents != 0) hear_all(s, who[i]);
        steps_progress(s);
    }
}

/* ---- moves ---- */

static void note_move(struct run *run, const struct move *m, bool is_early) {
    if ((run->move_count & (run->move_count + 1)) == 0)
        run->moves = realloc(run->moves, (size_t)(2 * run->move_count + 2) * sizeof *m);
    if (run->moves == NULL) fail(STATUS_START, "no memory", "");
    run->moves[run->move_count++] = *m;
    run->early += is_early;
    counts.moves++;
}

/* Adds a line of choices: numbers, words, and where it is. */
static void note_choice(struct run *run, const char *head, const struct move *m, int count) {
    char text[300], line[1500];
    struct place place;
    steps_say_move(run->steps, *m, text, sizeof text, &place);
    int length =
        snprintf(line, sizeof line, "%s%u %u %u %u of %d # %s", head, m->kind, m->rank, m->op, m->at, count, text);
    for (uint32_t i = 0; i < place.count; i++)
        length += snprintf(line + length, sizeof line - (size_t)length, " @%lx", (unsigned long)place.frames[i]);
    line[length++] = '\n';
    run->choices = realloc(run->choices, run->choices_length + (size_t)length + 1);
    if (run->choices == NULL) fail(STATUS_START, "no memory", "");
    memcpy(run->choices + run->choices_length, line, (size_t)length);
    run->choices_length += (size_t)length;
    run->choices[run->choices_length] = '\0';
}

/* The move that a file, or a result of before, has at this place; the first one behind its end. */
static const struct move *forced_move(int at, const struct move *moves, int count, bool *is_astray) {
    if (at >= forced_count) return &moves[0];
    for (int i = 0; i < count; i++)
        if (is_same_move(&moves[i], &forced[at])) return &moves[i];
    *is_astray = true;
    return NULL;
}

/* The first move that was made in the recorded run, or the first one of all. */
static const struct move *recorded_move(const struct move *moves, int count) {
    for (int i = 0; i < count; i++)
        for (int k = 0; k < forced_count; k++)
            if (moves[i].rank == forced[k].rank && moves[i].op == forced[k].op && moves[i].at == forced[k].at)
                return &moves[i];
    return &moves[0];
}

/* What the same receive or probe might have taken in place of what it takes. */
static void note_others(struct run *run, const struct move *m, const struct move *moves, int count) {
    for (int i = 0; i < count; i++)
        if (moves[i].kind == m->kind && moves[i].rank == m->rank && moves[i].op == m->op && moves[i].at != m->at)
            note_choice(run, "or ", &moves[i], count);
}

/* The move that the search makes at this place. With --mix it is the first one behind so many places. */
static const struct move *searched_move(struct run *run, int at, const struct move *moves, int count) {
    const bool is_open =
        set.mix < 0 || kombazily_may_differ(run->differs, (uint64_t)run->differs_at, (uint64_t)at, (uint64_t)set.mix);
    if (!is_open && count > 1) {
        counts.has_apart = true;
        kombazily_choices_keep_first(&choices);
    }
    const struct move *found = search_move(moves, is_open ? count : 1, &run->is_astray);
    if (found != NULL && found != moves && !run->differs) run->differs = true, run->differs_at = at;
    return found;
}

/* Makes the move that is due at this place: false where there is none. */
static bool make_move(struct run *run, int at, const struct move *moves, int count, enum choosing choosing) {
    const struct move *found = choosing == BY_FILE || choosing == BY_PREFIX
                                   ? forced_move(at, moves, count, &run->is_astray)
                               : choosing == BY_CHANCE ? &moves[random() % count]
                               : choosing == BY_RECORD ? recorded_move(moves, count)
                                                       : searched_move(run, at, moves, count);
    if (found == NULL) return false;
    const struct move chosen = *found;
    if (set.places) note_choice(run, "", &chosen, count);
    if (choosing == BY_RECORD) note_others(run, &chosen, moves, count);
    note_move(run, &chosen, steps_is_early(run->steps, (int)(found - moves)));
    steps_take(run->steps, chosen);
    return true;
}

/* ---- a run ---- */

/* From fence to fence, until the run is at its end. */
static enum ending play(struct run *run, enum choosing choosing) {
    static struct move moves[MOST_MOVES];
    struct steps *s = run->steps;
    for (int at = 0;;) {
        if (choosing == BY_PREFIX && at == forced_count) return CUT;
        if (!run_ranks(s)) return is_over() ? LATE : SILENT;
        const enum ending ending = steps_ending(s);
        if (ending != GOES_ON) return ending;
        int count = steps_moves(s, moves, MOST_MOVES);
        if (count == MOST_MOVES) fail(STATUS_START, "16,384 choices at one place, and more", "");
        if (count > 0 && !make_move(run, at++, moves, count, choosing)) return CUT;
        if (count != 0 || steps_say_no(s)) continue;
        steps_tell_deadlock(s);
        return DEADLOCK;
    }
}

/* How a process ended, in words. */
static void say_end(enum finding_kind kind, int rank, int code, char *text, size_t room) {
    switch (kind) {
    case RECORD_ENDS:
        snprintf(text, room, "what was recorded of rank %d ends here", rank);
        break;
    case KILLED:
        snprintf(text, room, "rank %d was killed by signal %d (%s)", rank, code, strsignal(code));
        break;
    case NO_FINALIZE:
        snprintf(text, room, "rank %d ended without MPI_Finalize (status %d)", rank, code);
        break;
    default:
        snprintf(text, room, "rank %d ended with status %d", rank, code);
    }
}

/* Takes a rank's process to its end, and tells how it ended where that is worth it. */
static void end_process(struct run *run, int rank) {
    struct steps *s = run->steps;
    const bool by_itself = end_rank(rank, socket_of_rank(rank) >= 0);
    const int status = status_of_rank(rank);
    const bool is_killed = WIFSIGNALED(status);
    const int code = is_killed ? WTERMSIG(status) : WEXITSTATUS(status);
    char text[200];
    close_socket(rank);
    const enum finding_kind kind =
        kombazily_finding_of_end(run->ending, by_itself, is_killed, (uint32_t)code, steps_has_finalized(s, rank),
                                 steps_has_failed(s, rank), set.played != NULL);
    if (kind == 0) return;
    say_end(kind, rank, code, text, sizeof text);
    steps_note(s, rank, kind, text);
    if (kind == RECORD_ENDS) run->has_open_end = true;
    run->ending = kombazily_ending_behind(run->ending, kind);
}

/* Where what ran is no program of MPI, it is shown what it printed. */
static void refuse_other_program(void) {
    uint32_t signals[MOST_RANKS] = {0};
    for (int rank = 0; rank < set.size; rank++) {
        const int status = status_of_rank(rank);
        signals[rank] = WIFSIGNALED(status) ? (uint32_t)WTERMSIG(status) : 0;
    }
    if (kombazily_is_program(has_begun, signals, (size_t)set.size)) return;
    for (int rank = 0; rank < set.size; rank++) {
        size_t length;
        char *text = output_of(rank, &length);
        if (length > 0) fprintf(stderr, "[%d] %.*s%s", rank, (int)length, text, text[length - 1] == '\n' ? "" : "\n");
        free(text);
    }
    fail(STATUS_START, set.program[0],
         ": no rank called MPI_Init, so there is nothing to check: it is no program of MPI, isn't linked with this "
         "library (by its mpicc), or ended before");
}

/* Where a record is over, it isn't known what its rank would do for those that wait; but those of a cycle wait for each
 * other. */
static void leave_open(struct run *run) {
    int cycle[MOST_RANKS];
    run->ending = kombazily_with_open_end(run->ending, run->has_open_end, steps_cycle(run->steps, cycle) > 0);
}

void run_once(struct run *run, bool synchronous, enum choosing choosing) {
    const struct steps_options options = {.size = set.size,
                                          .synchronous = synchronous,
                                          .each = set.each && !synchronous,
                                          .buffered = (uint64_t)set.buffered,
                                          .patience = set.noes,
                                          .goes_on = set.goes_on,
                                          .choices = &choices};
    search_start_run();
    const uint64_t asks = counts.asks;
    *run = (struct run){.steps = steps_new(&options)};
    for (int rank = 0; rank < set.size; rank++) start_rank(rank, !synchronous);
    run->ending = play(run, choosing);
    run->asks = counts.asks - asks;
    if (run->ending == LATE && asked_to_stop == 0) tell_stands(run->steps);
    bool is_through = run->ending != CUT && run->ending != LATE;
    if (choosing == BY_SEARCH && is_through && !search_end_run()) run->is_astray = true;
    if (run->ending != LATE) answer_all(run->steps);
    for (int rank = 0; rank < set.size; rank++) end_process(run, rank);
    /* A signal of the terminal's went to the ranks, too: what it did to them is no end of a run. */
    if (asked_to_stop != 0) run->ending = LATE, run->is_astray = false;
    if (run->ending != LATE) refuse_other_program();
    leave_open(run);
    steps_tell_collectives(run->steps);
    if (kombazily_is_rest_told(run->ending)) steps_tell_rest(run->steps);
    if (run->ending == DEADLOCK) steps_tell_others(run->steps);
    steps_tell_ready(run->steps, run->ending == ENDED);
    counts.calls += steps_calls(run->steps);
    if (steps_withheld(run->steps)) counts.has_withheld = true;
    if (steps_cancelled(run->steps)) counts.has_cancelled = true;
    if (steps_is_ready_unsure(run->steps)) counts.has_ready = true;
    if (run->ending == UNEXPLORED) counts.is_unexplored = true;
    if (steps_kept(run->steps)) counts.has_kept = true;
    if (steps_left_parts(run->steps)) counts.has_parts = true;
    if (steps_sent_long(run->steps)) counts.has_long = true;
}
