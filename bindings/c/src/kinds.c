/* The kinds of requests that the engine knows: sends, receives, and receives of messages that were taken out (MPI 3.1,
 * 3.7 and 3.8.3). Requests of other kinds have their tables in files of their own. */
#include "errors.h"
#include "internal.h"
#include "lines.h"
#include "unasked.h"

/* ---- going on ---- */

/* Asks the engine whether a request is at its end, and then how: looking takes a twentieth of the time of a test. */
static void ask_end(struct request *request) {
    struct engine_call call = {.kind = ENGINE_LOOK, .request = request->own};
    struct engine_answer answer;
    call_engine(&call, NULL, 0, &answer);
    if (answer.kind == ENGINE_FACT && answer.fact == 0) return;
    call.kind = ENGINE_TEST;
    call_engine(&call, NULL, 0, &answer);
    if (answer.kind != ENGINE_PENDING) end_request(request, &answer);
}

/* The end of a send that waited for its receive tells what was received. */
static void ask_end_of_send(struct request *request) {
    ask_end(request);
    if (request->is_ended && request->tells) note_received(request);
}

/* ---- cancelling ---- */

/* The number of a refusal, or 0. */
static uint32_t cancel_in_engine(const struct request *request) {
    const struct engine_call cancel = {.kind = ENGINE_CANCEL, .request = request->own};
    struct engine_answer answer;
    call_engine(&cancel, NULL, 0, &answer);
    return answer.kind == ENGINE_REFUSED ? answer.number : 0;
}

static int cancel_receive(const char *call, struct request *request) {
    if (request->is_ended) return MPI_SUCCESS;
    uint32_t number = cancel_in_engine(request);
    progress_out();
    if (number == 0) return MPI_SUCCESS;
    return raise_in(request->comm, call, class_of(number), "%s (%u)", cause_of(number), (unsigned)number);
}

static void abandon_receive(struct request *request) { (void)cancel_in_engine(request); }

/* ---- words ---- */

static void say_receive(struct line *line, struct request *request) {
    add_message(line, request->comm, request->peer, request->tag);
}

static void say_receive_left(struct line *line, struct request *request) {
    add_text(line, "receive: ");
    say_receive(line, request);
}

static void say_send(struct line *line, struct request *request) {
    add_rank(line, request->comm, request->peer);
    add_text(line, " to receive %zu bytes", request->room);
    add_place(line, request->comm, request->peer, request->tag);
    if (request->is_crowded)
        add_text(line, ", behind %llu bytes that it hasn't asked for (KOMBAZILY_UNASKED)",
                 (unsigned long long)unasked_bytes(request->target));
}

static void say_send_left(struct line *line, struct request *request) {
    add_text(line, "send: %zu bytes to ", request->room);
    add_rank(line, request->comm, request->peer);
    add_place(line, request->comm, request->peer, request->tag);
}

static void say_matched(struct line *line, struct request *request) {
    (void)request;
    add_text(line, "the data of its message");
}

static void say_matched_left(struct line *line, struct request *request) {
    add_text(line, "receive: a message that was taken out in ");
    add_comm(line, request->comm);
}

/* ---- the tables ---- */

const struct request_kind send_kind = {.go_on = ask_end_of_send,
                                       .start = start_again,
                                       .forget = forget_again,
                                       .say_wait = say_send,
                                       .say_left = say_send_left};

const struct request_kind receive_kind = {.go_on = ask_end,
                                          .start = start_again,
                                          .cancel = cancel_receive,
                                          .abandon = abandon_receive,
                                          .forget = forget_again,
                                          .say_wait = say_receive,
                                          .say_left = say_receive_left};

/* It is at its end once matched_receives.c has had the engine receive it. */
const struct request_kind matched_kind = {.say_wait = say_matched, .say_left = say_matched_left};
