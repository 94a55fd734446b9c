/* Receives of messages that a matching probe took out, which begin and don't wait (MPI 3.1, 3.8.3).
 *
 * While the data of such a message are on their way, the engine answers nothing but FINISH and LOOK. So a receive that
 * began is ended by whatever asks for the end of a request; whatever else asks the engine waits for it first. That
 * can't wait for ever: its sender has announced the message, so it comes without any further call of this program. */
#include "explored.h"
#include "internal.h"
#include "types.h"
#include "wait_lines.h"

#include <stddef.h>

/* Those that aren't at their ends, in the order in which they began; whether the engine receives the first one. */
static struct request *first, *last;
static bool is_received;

/* Has the engine receive the first one, or asks how that ended. */
static void receive_first(struct engine_answer *answer) {
    const struct engine_call finish = {.kind = ENGINE_FINISH};
    const struct engine_call receive = {.kind = ENGINE_MRECV,
                                        .request = first->own,
                                        .basic = first->type->basic,
                                        .count = engine_elements(first->type, first->room)};
    ask_engine(is_received ? &finish : &receive, NULL, 0, answer);
    is_received = answer->kind == ENGINE_BLOCKED || answer->kind == ENGINE_PENDING;
}

bool is_engine_free(void) {
    if (is_engine_in_collective()) return false;
    while (first != NULL) {
        struct engine_answer answer;
        receive_first(&answer);
        if (is_received) return false;
        struct request *ended = first;
        first = ended->behind;
        end_request(ended, &answer);
        note_news();
    }
    return true;
}

void begin_matched(struct request *request) {
    request->behind = NULL;
    if (first == NULL) first = request;
    else last->behind = request;
    last = request;
    /* Under an explorer its data come in a later call, so that a program which reads them too early sees none. */
    if (!is_explored) (void)is_engine_free();
    progress_out();
}

void free_engine(void) {
    if (is_engine_free()) return;
    begin_wait(&(struct wait){.kind = WAIT_DATA});
    do progress_wait();
    while (!is_engine_free());
    end_wait();
    progress_out();
}
