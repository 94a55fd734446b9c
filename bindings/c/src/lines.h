/* Lines that the library writes of messages, requests and communicators. They name ranks by their numbers in
 * MPI_COMM_WORLD, and a communicator by its name. Not for signal handlers. */
#ifndef KOMBAZILY_LINES_H
#define KOMBAZILY_LINES_H

#include "communicators.h"
#include "internal.h"

enum { LONGEST_LINE = 1000, LONGEST_SOURCE = 300 };

/* A line, at first {.length = 0}; what is too long for it is cut. */
struct line {
    char text[LONGEST_LINE];
    size_t length;
};

void add_text(struct line *line, const char *form, ...) __attribute__((format(printf, 2, 3)));

/* `10 s`, or `1500 ms`. */
void add_time(struct line *line, long milliseconds);

/* `MPI_COMM_WORLD`, `'row'`, `a communicator of 4 without a name`. */
void add_comm(struct line *line, const struct communicator *comm);

/* `a message of rank 1 with tag 5 in MPI_COMM_WORLD`: the source and the tag as a receive names them. */
void add_message(struct line *line, const struct communicator *comm, int source, int tag);

/* A rank of a communicator, as a program names it: `rank 1`, or MPI_PROC_NULL. And one of all members of it. */
void add_rank(struct line *line, const struct communicator *comm, int member);
void add_member(struct line *line, const struct communicator *comm, int member);

/* ` with tag 5 in 'row', where it is rank 0`: the tag, the communicator, and which number the member has there. */
void add_place(struct line *line, const struct communicator *comm, int member, int tag);

/* What a request is for: a message, or `rank 1 to receive 40 bytes with tag 5 in MPI_COMM_WORLD`. */
void add_request(struct line *line, struct request *request);

/* ` (ring.c:14)`, of the call of MPI that returns there, where that can be told. */
void add_source(struct line *line, const void *caller);

/* The same of the call that the program made last, in a job of at most 64 ranks: they may all look at once. */
void add_call_source(struct line *line);

/* Writes it on standard error, behind what the program has printed. */
void write_line(const struct line *line);

/* Writes the line of an error that ends the job: `rank 1: MPI_Recv: TEXT (ring.c:14)`. */
void write_error(const char *call, const char *text);

#endif
