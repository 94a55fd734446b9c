/* The neighbours of a rank (MPI 3.1, 7.6). */
#ifndef KOMBAZILY_NEIGHBOURS_H
#define KOMBAZILY_NEIGHBOURS_H

#include "communicators.h"

/* How many edges of a topology come to the own rank, and how many go from it: none where there is no topology. */
void count_neighbours_of(const struct communicator *comm, int *sources, int *destinations);

#endif
