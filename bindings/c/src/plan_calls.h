/* Calls of MPI that become plans: their arguments, checked and as blocks, and what begins them. */
#ifndef KOMBAZILY_PLAN_CALLS_H
#define KOMBAZILY_PLAN_CALLS_H

#include "plan_runs.h"

/* A call: its name, its communicator; whether it waits, or makes a request that is begun by MPI_Start (MPI 4.0, 6.13),
 * and where a request goes that it answers with. */
struct asked {
    const char *name;
    MPI_Comm handle;
    MPI_Request *request;
    bool waits, is_persistent;
    struct communicator *comm; /* found by check_asked */
};
#define BLOCKING(of_name, of_comm)                                                                                     \
    &(struct asked) { .name = (of_name), .handle = (of_comm), .waits = true }
#define NONBLOCKING(of_name, of_comm, of_request)                                                                      \
    &(struct asked) { .name = (of_name), .handle = (of_comm), .request = (of_request) }
#define PERSISTENT(of_name, of_comm, of_request)                                                                       \
    &(struct asked) { .name = (of_name), .handle = (of_comm), .request = (of_request), .is_persistent = true }

/* That MPI runs, that the communicator is one, and that there is somewhere to put a request: 0, or a class. */
int check_asked(struct asked *asked);

/* Blocks as a call is given them: each of `count` items or of `counts`[k]; block k begins `displacements`[k] extents
 * behind the address, or behind the one before it where there are none. With `types`, which are then one for each
 * block, displacements are in bytes. */
struct blocks {
    const void *at;
    int count;
    MPI_Datatype type;
    const int *counts, *displacements;
    const MPI_Datatype *types;
    const MPI_Aint *addresses; /* in the place of displacements, with types: those of exchanges with neighbours */
};

/* Checks so many blocks, and makes their list: 0, or a class. The list is to be freed by free_places. */
int list_blocks(const struct asked *asked, const struct blocks *blocks, int number, struct places *made);
/* A list of one place of another one, or of all of them: in place (5.2). */
int list_again(const struct asked *asked, const struct places *places, int from, int number, struct places *made);

/* Checks that what a member hands to itself is what it gets, and doesn't stand in its place already (2.3). */
int check_own_places(const struct asked *asked, struct place given, struct place got);
int check_apart_places(const struct asked *asked, const void *sendbuf, const void *recvbuf, size_t bytes);

/* Carries a plan out, or begins it where a request is wanted. It takes the lists of the call over in any case. */
int carry_out(const struct asked *asked, struct plan_call *call);

/* ---- rooted.c: gather, scatter and broadcast as plans ---- */

int gather_by_plan(struct asked *asked, int root, const struct blocks *send, const struct blocks *receive);
int scatter_by_plan(struct asked *asked, int root, const struct blocks *send, const struct blocks *receive);
int broadcast_by_plan(struct asked *asked, int root, void *buffer, int count, MPI_Datatype datatype);

#endif
