/* How the members of a group that makes a communicator alone learn of its world (worlds.h): one tells the others its
 * number, by a message of the engine of plans, in the communicator in which they are ranks. Nobody else takes part. */
#ifndef KOMBAZILY_INVITATIONS_H
#define KOMBAZILY_INVITATIONS_H

#include "addresses.h"
#include "communicators.h"

/* What is told: the world's number, or 0, since none can be made; what tells calls apart that go on at the same time;
 * and of MPI_Intercomm_create the ranks of the sender's group in MPI_COMM_WORLD. */
struct invitation {
    uint64_t number;
    uint64_t mark;
    uint32_t count;
    uint16_t list[MOST_RANKS];
};

/* A sum of a call's tag, and of a list of ranks. */
uint64_t mark_of(int tag, const uint16_t *list, int count);

/* Begins to tell one of all members of a communicator; and waits until that is done. 0, or a number. */
uint32_t begin_invitation(const struct communicator *comm, int member, int tag, const struct invitation *it,
                          struct engine_request *begun);
uint32_t end_invitation(const struct engine_request *begun);
/* Waits for what one of all members tells of the call with this tag and mark. 0, or a number. */
uint32_t hear_invitation(struct communicator *comm, int member, int tag, uint64_t mark, struct invitation *into);
/* Gives those back that nobody waited for. */
void close_invitations(void);

/* Opens the world of this number and these members, and makes the communicator of all of them; the list is the
 * callee's. The handler is the parent's. 0, or a number; the handle is MPI_COMM_NULL then. */
uint32_t open_group(uint64_t number, uint16_t *members, int size, const struct communicator *parent, MPI_Comm *made);
/* The same for a handle that is there: what the communicator has but its place. */
uint32_t place_in_group(struct communicator *made, uint64_t number, uint16_t *members, int size,
                        const struct communicator *parent);

#endif
