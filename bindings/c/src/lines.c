/* Lines that the library writes of messages, requests and communicators: see lines.h. */
#define _GNU_SOURCE
#include "lines.h"

#include "explored.h"
#include "intercommunicators.h"
#include "plan_runs.h"
#include "where.h"

#include <signal.h>
#include <stdarg.h>
#include <stdio.h>

/* Of these all may look for the line of their call at once: they are given little time. */
enum { MOST_WITH_SOURCE = 64 };

void add_text(struct line *line, const char *form, ...) {
    size_t room = sizeof line->text - line->length;
    va_list arguments;
    va_start(arguments, form);
    int length = vsnprintf(line->text + line->length, room, form, arguments);
    va_end(arguments);
    if (length > 0) line->length += (size_t)length < room ? (size_t)length : room - 1;
}

void add_time(struct line *line, long milliseconds) {
    bool is_whole = milliseconds % 1000 == 0;
    add_text(line, is_whole ? "%ld s" : "%ld ms", is_whole ? milliseconds / 1000 : milliseconds);
}

/* A name that the program chose: it may have any bytes. */
static void add_name(struct line *line, const char *name) {
    add_text(line, "'");
    for (const char *at = name; *at != '\0'; at++) add_text(line, "%c", *at >= ' ' && *at <= '~' ? *at : '?');
    add_text(line, "'");
}

void add_comm(struct line *line, const struct communicator *comm) {
    if (comm == NULL) add_text(line, "a communicator that was freed");
    else if (comm->place == ENGINE_WORLD) add_text(line, "MPI_COMM_WORLD");
    else if (comm->place == ENGINE_SELF) add_text(line, "MPI_COMM_SELF");
    else if (comm->name[0] != '\0') add_name(line, comm->name);
    else if (is_inter(comm))
        add_text(line, "an intercommunicator of %d and %d without a name", comm->size, peers_of(comm));
    else add_text(line, "a communicator of %d without a name", comm->size);
}

/* The number in MPI_COMM_WORLD of one of all members; its own number where that can't be had. */
static int rank_in_world(const struct communicator *comm, int member) {
    if (comm == NULL || comm->place == ENGINE_WORLD || member < 0) return member;
    if (!is_explored) return world_rank(comm, member);
    struct engine_answer answer;
    uint16_t rank = 0;
    ask_engine(&(struct engine_call){.kind = ENGINE_MEMBERS, .communicator = comm->place}, NULL, 0, &answer);
    if (answer.kind != ENGINE_FACT) return member;
    take_from_engine((uint64_t)member, (uint8_t *)&rank, sizeof rank);
    return rank;
}

void add_member(struct line *line, const struct communicator *comm, int member) {
    add_text(line, "rank %d", rank_in_world(comm, member));
}

void add_rank(struct line *line, const struct communicator *comm, int member) {
    if (member == MPI_PROC_NULL) add_text(line, "MPI_PROC_NULL");
    else add_member(line, comm, comm == NULL ? member : member_of(comm, member));
}

void add_place(struct line *line, const struct communicator *comm, int member, int tag) {
    if (tag == MPI_ANY_TAG) add_text(line, " with any tag in ");
    else add_text(line, " with tag %d in ", tag);
    add_comm(line, comm);
    if (comm != NULL && comm->place != ENGINE_WORLD && member >= 0) add_text(line, ", where it is rank %d", member);
}

void add_message(struct line *line, const struct communicator *comm, int source, int tag) {
    if (source == MPI_ANY_SOURCE) add_text(line, "a message of any rank");
    else {
        add_text(line, "a message of ");
        add_rank(line, comm, source);
    }
    add_place(line, comm, source, tag);
}

void add_request(struct line *line, struct request *request) {
    if (request->other != NULL && request->is_ended) request = request->other;
    request->kind->say_wait(line, request);
}

void add_source(struct line *line, const void *caller) {
    char source[LONGEST_SOURCE];
    put_source_line(caller, source, sizeof source);
    add_text(line, "%s", source);
}

void add_call_source(struct line *line) {
    /* An explorer tells lines itself. */
    if (!is_explored && process.size <= MOST_WITH_SOURCE) add_source(line, process.caller);
}

void write_line(const struct line *line) {
    fflush(stdout);
    fprintf(stderr, "%s\n", line->text);
}

/* Where another rank's error ends the job meanwhile, its signal comes behind the line. */
void write_error(const char *call, const char *text) {
    struct line line = {.length = 0};
    sigset_t ends, before;
    sigemptyset(&ends);
    sigaddset(&ends, SIGTERM);
    sigaddset(&ends, SIGINT);
    pthread_sigmask(SIG_BLOCK, &ends, &before);
    add_text(&line, "rank %d: %s: %s", process.rank, call, text);
    add_call_source(&line);
    write_line(&line);
    pthread_sigmask(SIG_SETMASK, &before, NULL);
}
