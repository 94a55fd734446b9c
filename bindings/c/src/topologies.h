/* Topologies (MPI 3.1, 7): what is kept of one with its communicator. It doesn't change, and copies of the communicator
 * share it. */
#ifndef KOMBAZILY_TOPOLOGIES_H
#define KOMBAZILY_TOPOLOGIES_H

#include "communicators.h"
#include "mpi.h"

#include <stdbool.h>
#include <stdint.h>

/* A grid: the size of each dimension, and whether it is a ring. */
struct grid {
    int dimensions;
    uint32_t *sizes;
    bool *rings;
};

/* A graph of all ranks (7.5.3): `ends` has for each rank the number of edges of the ranks up to it. */
struct graph {
    int nodes, edges;
    int *ends, *neighbours;
};

/* The edges that come to this rank and go from it (7.5.4), and what they weigh, where that is told. */
struct edges {
    int sources, destinations;
    bool are_weighted;
    int *from, *from_weights, *to, *to_weights;
};

struct topology {
    int kind; /* MPI_CART, MPI_GRAPH or MPI_DIST_GRAPH: which of those behind it is there */
    int uses;
    struct grid grid;
    struct graph graph;
    struct edges edges;
};

/* A topology of this kind, with one use and nothing in it; NULL: there is no memory. */
struct topology *new_topology(int kind);
/* It stays as long as it is held; both take NULL for none. */
struct topology *hold_topology(struct topology *topology);
void release_topology(struct topology *topology);

/* The communicator's topology, where it is of this kind; else MPI_ERR_TOPOLOGY, of which it has told the handler. */
int check_topology(MPI_Comm comm, const char *call, int kind, struct communicator **own);

/* Makes a communicator of the first `size` members, in their order, with this topology (which it takes over, or gives
 * back); the others get MPI_COMM_NULL. */
int make_with_topology(MPI_Comm comm, const char *call, int size, struct topology *topology, MPI_Comm *newcomm);

#endif
