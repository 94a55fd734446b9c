/* What a rank says of its wait: see wait_lines.h. */
#define _GNU_SOURCE
#include "wait_lines.h"

#include "device.h"
#include "lines.h"
#include "silence.h"
#include "standstill.h"

#include <signal.h>

enum { MOST_TOLD = 4 /* requests of a list that are told one by one */ };

/* The wait of the thread that is in the library, if it is in one. */
static struct wait current;
static bool is_in_wait;
/* How many threads wait, and the signal that asked the process to end meanwhile. */
static volatile sig_atomic_t is_waiting, asked;

/* ---- the line ---- */

/* Those of a list that aren't at their ends. */
static void add_list(struct line *line, const struct wait *it) {
    int open = 0, told = 0;
    for (int i = 0; i < it->count; i++)
        if (it->list[i] != MPI_REQUEST_NULL && !is_at_end(request_of(it->list[i]))) open++;
    if (open > 1) add_text(line, "%s of %d requests: ", it->kind == WAIT_ALL ? "all" : "any", open);
    for (int i = 0; i < it->count && told < MOST_TOLD; i++) {
        if (it->list[i] == MPI_REQUEST_NULL || is_at_end(request_of(it->list[i]))) continue;
        if (told++ > 0) add_text(line, "; ");
        add_request(line, request_of(it->list[i]));
    }
    if (open > told) add_text(line, "; and %d more", open - told);
}

/* `rank 1 (10.0.0.2, UDP port 36401)`. */
static void add_rank_place(struct line *line, int rank) {
    const struct addresses *job = device_ranks();
    const uint32_t own = job->of_rank[rank];
    add_text(line, "rank %d (%u.%u.%u.%u, UDP port %d)", rank, own >> 24, own >> 16 & 255, own >> 8 & 255, own & 255,
             port_at(job, rank));
}

void tell_never_heard(int rank) {
    struct line line = {.length = 0};
    add_text(&line, "rank %d: nothing has come from ", process.rank);
    add_rank_place(&line, rank);
    add_text(&line, " for ");
    add_time(&line, LONG_SILENCE);
    add_text(&line, ": a firewall?");
    write_line(&line);
}

/* A rank that was never heard, in place of what is waited for: whether there is one. */
static bool add_never_heard(struct line *line) {
    const int rank = never_heard();
    if (rank < 0) return false;
    add_rank_place(line, rank);
    add_text(line, ", from which nothing has come: a firewall?");
    return true;
}

static void add_collective(struct line *line, const struct wait *it) {
    if (add_never_heard(line)) return;
    add_text(line, "the other ranks of ");
    add_comm(line, communicator_at(it->place));
    if (it->root >= 0) add_text(line, " (root %d)", it->root);
}

/* The line of the wait that lasts. */
static struct line wait_line(void) {
    const struct wait *it = &current;
    struct line line = {.length = 0};
    add_text(&line, "rank %d: %s waits for ", process.rank, process.call);
    switch (it->kind) {
    case WAIT_REQUEST:
        add_request(&line, it->request);
        break;
    case WAIT_ALL:
    case WAIT_ANY:
        add_list(&line, it);
        break;
    case WAIT_MESSAGE:
        add_message(&line, communicator_of(it->comm), it->rank, it->tag);
        break;
    case WAIT_MEMBER:
        add_member(&line, communicator_of(it->comm), it->rank);
        add_text(&line, " to enter it in ");
        add_comm(&line, communicator_of(it->comm));
        break;
    case WAIT_DATA:
        add_text(&line, "the data of its message");
        break;
    case WAIT_COLLECTIVE:
        add_collective(&line, it);
        break;
    case WAIT_SENT:
        if (!add_never_heard(&line)) add_text(&line, "what it sent to be received");
        break;
    }
    add_call_source(&line);
    return line;
}

_Noreturn void give_up(void) {
    struct line line = wait_line();
    add_text(&line, "; gave up after ");
    add_time(&line, process.patience);
    write_line(&line);
    end_job(STATUS_PATIENCE);
}

/* ---- the wait ---- */

void begin_wait(const struct wait *it) {
    current = *it;
    if (!is_in_wait) is_waiting++;
    is_in_wait = true;
    progress_begin_wait();
}

/* Ends the process by a signal, as if nobody had treated it. */
static void end_by(int signal_number) {
    signal(signal_number, SIG_DFL);
    raise(signal_number);
}

struct wait_state leave_wait(void) {
    const struct wait_state state = {current, is_in_wait};
    is_in_wait = false;
    return state;
}

void come_back_to_wait(const struct wait_state *state) {
    current = state->wait;
    is_in_wait = state->is_waiting;
}

void end_wait(void) {
    if (is_in_wait) is_waiting--;
    is_in_wait = false;
    standstill_leave();
    if (asked != 0) end_by(asked);
}

void heed_signals(void) {
    if (asked == 0) return;
    const struct line line = wait_line();
    write_line(&line);
    end_by(asked);
}

/* The handler of both signals. A rank that waits says what for: that isn't for a handler, so it is only asked to. */
static void note_signal(int signal_number) {
    if (is_waiting && asked == 0) asked = signal_number;
    else end_by(signal_number);
}

void watch_signals(void) {
    static const int watched[] = {SIGTERM, SIGINT};
    for (size_t at = 0; at < sizeof watched / sizeof *watched; at++) {
        struct sigaction before;
        if (sigaction(watched[at], NULL, &before) == 0 && before.sa_handler == SIG_DFL)
            (void)signal(watched[at], note_signal);
    }
}
