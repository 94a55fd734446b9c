/* Collectives over intercommunicators (MPI 3.1, 5.2.2 and 5.2.3): plans whose steps go between the groups. A call of
 * which nothing is checked yet is handed here where its communicator is one. */
#ifndef KOMBAZILY_INTERCOLLECTIVES_H
#define KOMBAZILY_INTERCOLLECTIVES_H

#include "plan_calls.h"
#include "prefixes.h"

/* Whether a handle is that of an intercommunicator. */
bool is_of_inter(MPI_Comm comm);

/* No member leaves before all of the other group have entered. */
int inter_barrier(struct asked *asked);
/* The root is MPI_ROOT at itself, MPI_PROC_NULL at the others of its group, and its rank in the other group. */
int inter_broadcast(struct asked *asked, int root, const struct blocks *all);
int inter_gather(struct asked *asked, int root, const struct blocks *send, const struct blocks *receive);
int inter_scatter(struct asked *asked, int root, const struct blocks *send, const struct blocks *receive);
int inter_reduce(struct asked *asked, int root, const struct folded *it);
/* Each gets what the other group hands in. */
int inter_allgather(struct asked *asked, const struct blocks *send, const struct blocks *receive);
int inter_alltoall(struct asked *asked, const struct blocks *send, const struct blocks *receive);
int inter_allreduce(struct asked *asked, const struct folded *it);
int inter_reduce_scatter(struct asked *asked, const int counts[], const struct folded *it);

#endif
