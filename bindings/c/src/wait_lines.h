/* What a rank waits for. Where a wait doesn't end the rank says so in one line, which names ranks by their numbers in
 * MPI_COMM_WORLD:
 *
 *   rank 0: MPI_Recv waits for a message of rank 1 with tag 5 in MPI_COMM_WORLD
 *
 * It does at SIGTERM and SIGINT, and where it loses its patience. docs/C.md has all forms of the line. */
#ifndef KOMBAZILY_WAIT_LINES_H
#define KOMBAZILY_WAIT_LINES_H

#include "internal.h"

enum wait_kind {
    WAIT_REQUEST,    /* `request` */
    WAIT_ALL,        /* all of `list` */
    WAIT_ANY,        /* one of `list` */
    WAIT_MESSAGE,    /* a message of `rank` with `tag` in `comm`: a probe */
    WAIT_MEMBER,     /* one of all members of `comm`, `rank`, to enter the same call */
    WAIT_DATA,       /* the data of a message that was matched */
    WAIT_COLLECTIVE, /* the other members of the communicator at `place`; `root` is there or -1 */
    WAIT_SENT        /* all that it sent is to be received: at its end */
};

struct wait {
    enum wait_kind kind;
    struct request *request;
    const MPI_Request *list;
    int count; /* of the list */
    MPI_Comm comm;
    int rank, tag, root;
    uint32_t place;
};

/* From now on the rank waits, and its patience begins anew. What the wait names stays until its end. */
void begin_wait(const struct wait *it);
void end_wait(void);

/* A thread that waits gives the library to others, and comes back. */
struct wait_state {
    struct wait wait;
    bool is_waiting;
};
struct wait_state leave_wait(void);
void come_back_to_wait(const struct wait_state *state);

/* To be called again and again by whoever waits, outside of signal handlers: ends the process, behind the line of its
 * wait, where a signal asked for it. */
void heed_signals(void);

/* Says that nothing has come from this rank of another host, to which something was sent long ago. */
void tell_never_heard(int rank);

/* Ends the process behind the line of its wait, since it lost its patience. */
_Noreturn void give_up(void);

/* From now on SIGTERM and SIGINT end a rank that waits behind that line, and every other one at once. A program that
 * treats one of them by itself keeps that. */
void watch_signals(void);

#endif
