/* Topologies: see topologies.h. */
#include "topologies.h"

#include "errors.h"
#include "intercommunicators.h"
#include "internal.h"

#include <stdlib.h>

struct topology *new_topology(int kind) {
    struct topology *made = calloc(1, sizeof *made);
    if (made == NULL) return NULL;
    made->kind = kind;
    made->uses = 1;
    return made;
}

struct topology *hold_topology(struct topology *topology) {
    if (topology != NULL) topology->uses++;
    return topology;
}

void release_topology(struct topology *topology) {
    if (topology == NULL || --topology->uses > 0) return;
    free(topology->grid.sizes);
    free(topology->grid.rings);
    free(topology->graph.ends);
    free(topology->graph.neighbours);
    free(topology->edges.from);
    free(topology->edges.from_weights);
    free(topology->edges.to);
    free(topology->edges.to_weights);
    free(topology);
}

int check_topology(MPI_Comm comm, const char *call, int kind, struct communicator **own) {
    static const char *const names[] = {
        [MPI_GRAPH] = "graph", [MPI_CART] = "grid", [MPI_DIST_GRAPH] = "distributed graph"};
    int class = check_comm(comm, call, own);
    if (class != MPI_SUCCESS) return class;
    if ((*own)->topology != NULL && (*own)->topology->kind == kind) return MPI_SUCCESS;
    return raise_on(comm, call, MPI_ERR_TOPOLOGY, "%s has no topology that is a %s", (*own)->name, names[kind]);
}

int make_with_topology(MPI_Comm comm, const char *call, int size, struct topology *topology, MPI_Comm *newcomm) {
    const struct communicator *own = communicator_of(comm);
    struct engine_call entry = {.kind = ENGINE_SPLIT, .order = own->rank};
    entry.colour = own->rank < size ? 0 : ENGINE_NO_COLOUR;
    int class = check_intra(comm, call, own);
    if (class == MPI_SUCCESS) class = make_communicator(comm, call, &entry, newcomm);
    if (class == MPI_SUCCESS && *newcomm != MPI_COMM_NULL) communicator_of(*newcomm)->topology = topology;
    else release_topology(topology);
    return class;
}

int MPI_Topo_test(MPI_Comm comm, int *status) {
    NOTE_CALLER();
    static const char call[] = "MPI_Topo_test";
    struct communicator *own;
    check_running(call);
    int class = check_comm(comm, call, &own);
    if (class == MPI_SUCCESS) class = check_result(comm, call, status, "status");
    if (class == MPI_SUCCESS) *status = own->topology == NULL ? MPI_UNDEFINED : own->topology->kind;
    return class;
}
