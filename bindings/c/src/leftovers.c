/* What a program leaves undone: see leftovers.h. */
#include "leftovers.h"

#include "lines.h"

/* So many requests, and messages of a communicator, are told one by one. */
enum { MOST_TOLD = 10 };

static struct line begun_line(void) {
    struct line line = {.length = 0};
    add_text(&line, "rank %d: MPI_Finalize: ", process.rank);
    return line;
}

/* How many there are beside those that were told. */
static void tell_others(int found, const char *what) {
    if (found <= MOST_TOLD) return;
    struct line line = begun_line();
    add_text(&line, "%d more %s", found - MOST_TOLD, what);
    write_line(&line);
}

static void tell_request(struct request *request) {
    struct line line = begun_line();
    add_text(&line, "no call ended this ");
    request->kind->say_left(&line, request);
    add_source(&line, request->caller);
    write_line(&line);
}

void tell_requests(void) {
    int found = 0;
    for (int at = 0; at < request_places(); at++) {
        struct request *it = request_at(at);
        if (it != NULL && !it->is_inactive && ++found <= MOST_TOLD) tell_request(it);
    }
    tell_others(found, "requests");
}

static void tell_message(const struct communicator *comm, const MPI_Status *status) {
    struct line line = begun_line();
    add_text(&line, "nobody received ");
    add_message(&line, comm, status->MPI_SOURCE, status->MPI_TAG);
    add_text(&line, ": %lld bytes", status->reserved_bytes);
    write_line(&line);
}

static void tell_messages_of(const struct communicator *comm) {
    const struct engine_call take = {
        .kind = ENGINE_IMPROBE, .communicator = comm->place, .peer = ENGINE_ANY, .tag = ENGINE_ANY};
    int found = 0;
    for (;;) {
        struct engine_answer answer;
        call_engine(&take, NULL, 0, &answer);
        if (answer.kind != ENGINE_MATCHED) break;
        const MPI_Status status = status_of(comm, &answer);
        if (++found <= MOST_TOLD) tell_message(comm, &status);
    }
    tell_others(found, "messages");
}

void tell_messages(void) { each_communicator(tell_messages_of); }
