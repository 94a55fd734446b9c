/* Intercommunicators (MPI 3.1, 6.6): the engine's communicator has the members of both groups; here stands which of
 * them are of which group. Nobody sends to a member of the own group there, so a message comes of the other one. */
#ifndef KOMBAZILY_INTERCOMMUNICATORS_H
#define KOMBAZILY_INTERCOMMUNICATORS_H

#include "communicators.h"

/* The members of each group in its order, by their places among all members. */
struct two_groups {
    int size, other_size;
    uint16_t *own, *other; /* one piece of memory */
};

static inline bool is_inter(const struct communicator *comm) { return comm->groups != NULL; }

/* How many ranks may be named as targets and sources, and the place among all members of one; and back. */
static inline int peers_of(const struct communicator *comm) {
    return is_inter(comm) ? comm->groups->other_size : comm->size;
}
static inline int member_of(const struct communicator *comm, int rank) {
    return is_inter(comm) && rank >= 0 ? comm->groups->other[rank] : rank;
}
int rank_of_member(const struct communicator *comm, int member);

/* Room for two groups of so many members in all; NULL: there is no memory. */
struct two_groups *new_groups(int all_size);
void free_groups(struct two_groups *groups);

/* The new communicator has the members of the first list as its own group, and those of the second as the other one. */
void take_groups(struct communicator *made, struct two_groups *groups);
/* The groups of a communicator that was made of another one: its members are of the groups that they were of. 0, or a
 * number; one where a group is empty is none (6.4.2). */
uint32_t part_groups(struct communicator *made, const struct communicator *parent, bool *is_none);
/* The same of a copy. */
uint32_t copy_groups(struct communicator *made, const struct communicator *parent);

/* That it is no intercommunicator: 0, or the class of an error, of which it has told the handler. */
int check_intra(MPI_Comm comm, const char *call, const struct communicator *own);

#endif
