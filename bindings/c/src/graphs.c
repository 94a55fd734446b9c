/* Graphs of ranks (MPI 3.1, 7.5.3, 7.5.5, 7.5.8): the whole graph stands at each member. */
#include "errors.h"
#include "internal.h"
#include "topologies.h"

#include <stdlib.h>
#include <string.h>

/* A copy of a list; of one number at least, so that an address is there. NULL: there is no memory. */
static int *copy_list(const int *list, int count) {
    int *made = malloc((count > 0 ? (size_t)count : 1) * sizeof *made);
    if (made != NULL && count > 0) memcpy(made, list, (size_t)count * sizeof *made);
    return made;
}

/* Checks a graph of so many nodes: how many edges each node and those before it have, and whither these go. */
static int check_graph(MPI_Comm comm, const char *call, int nnodes, const int indx[], const int edges[]) {
    const struct communicator *own = communicator_of(comm);
    if (nnodes < 0 || nnodes > own->size)
        return raise_on(comm, call, MPI_ERR_ARG, "a graph of %d nodes for %d ranks", nnodes, own->size);
    if (nnodes == 0) return MPI_SUCCESS;
    int class = check_result(comm, call, indx, "index");
    for (int at = 0; class == MPI_SUCCESS && at < nnodes; at++)
        if (indx[at] < (at == 0 ? 0 : indx[at - 1]))
            class = raise_on(comm, call, MPI_ERR_ARG, "index %d is %d, below the one before it", at, indx[at]);
    if (class != MPI_SUCCESS || indx[nnodes - 1] == 0) return class;
    class = check_result(comm, call, edges, "edges");
    for (int at = 0; class == MPI_SUCCESS && at < indx[nnodes - 1]; at++)
        if (edges[at] < 0 || edges[at] >= nnodes)
            class = raise_on(comm, call, MPI_ERR_ARG, "edge %d goes to %d of %d nodes", at, edges[at], nnodes);
    return class;
}

int MPI_Graph_create(MPI_Comm comm_old, int nnodes, const int indx[], const int edges[], int reorder,
                     MPI_Comm *comm_graph) {
    NOTE_CALLER();
    static const char call[] = "MPI_Graph_create";
    struct communicator *own;
    (void)reorder; /* ranks stay as they are, which any program has to live with */
    check_running(call);
    int class = check_comm(comm_old, call, &own);
    if (class == MPI_SUCCESS) class = check_result(comm_old, call, comm_graph, "comm_graph");
    if (class == MPI_SUCCESS) class = check_graph(comm_old, call, nnodes, indx, edges);
    if (class != MPI_SUCCESS) return class;
    struct topology *made = new_topology(MPI_GRAPH);
    const int count = nnodes == 0 ? 0 : indx[nnodes - 1];
    if (made != NULL) made->graph = (struct graph){nnodes, count, copy_list(indx, nnodes), copy_list(edges, count)};
    if (made == NULL || made->graph.ends == NULL || made->graph.neighbours == NULL) {
        release_topology(made);
        return raise_on(comm_old, call, MPI_ERR_NO_MEM, "no memory for a topology");
    }
    return make_with_topology(comm_old, call, nnodes, made, comm_graph);
}

int MPI_Graph_map(MPI_Comm comm, int nnodes, const int indx[], const int edges[], int *newrank) {
    NOTE_CALLER();
    static const char call[] = "MPI_Graph_map";
    struct communicator *own;
    check_running(call);
    int class = check_comm(comm, call, &own);
    if (class == MPI_SUCCESS) class = check_result(comm, call, newrank, "newrank");
    if (class == MPI_SUCCESS) class = check_graph(comm, call, nnodes, indx, edges);
    if (class == MPI_SUCCESS) *newrank = own->rank < nnodes ? own->rank : MPI_UNDEFINED;
    return class;
}

int MPI_Graphdims_get(MPI_Comm comm, int *nnodes, int *nedges) {
    NOTE_CALLER();
    static const char call[] = "MPI_Graphdims_get";
    struct communicator *own;
    check_running(call);
    int class = check_topology(comm, call, MPI_GRAPH, &own);
    if (class == MPI_SUCCESS) class = check_result(comm, call, nnodes, "nnodes");
    if (class == MPI_SUCCESS) class = check_result(comm, call, nedges, "nedges");
    if (class != MPI_SUCCESS) return class;
    *nnodes = own->topology->graph.nodes;
    *nedges = own->topology->graph.edges;
    return MPI_SUCCESS;
}

/* Copies as much of a list as there is room for. */
static void put_list(int *into, int room, const int *list, int count) {
    const int fit = count < room ? count : room;
    if (fit > 0) memcpy(into, list, (size_t)fit * sizeof *into);
}

int MPI_Graph_get(MPI_Comm comm, int maxindex, int maxedges, int indx[], int edges[]) {
    NOTE_CALLER();
    static const char call[] = "MPI_Graph_get";
    struct communicator *own;
    check_running(call);
    int class = check_topology(comm, call, MPI_GRAPH, &own);
    if (class == MPI_SUCCESS && maxindex > 0) class = check_result(comm, call, indx, "index");
    if (class == MPI_SUCCESS && maxedges > 0) class = check_result(comm, call, edges, "edges");
    if (class != MPI_SUCCESS) return class;
    const struct graph *graph = &own->topology->graph;
    put_list(indx, maxindex, graph->ends, graph->nodes);
    put_list(edges, maxedges, graph->neighbours, graph->edges);
    return MPI_SUCCESS;
}

/* The neighbours of a rank: where they begin, and how many they are. */
static int find_neighbours(MPI_Comm comm, const char *call, int rank, const int **first, int *count) {
    struct communicator *own;
    check_running(call);
    int class = check_topology(comm, call, MPI_GRAPH, &own);
    if (class != MPI_SUCCESS) return class;
    const struct graph *graph = &own->topology->graph;
    if (rank < 0 || rank >= graph->nodes)
        return raise_on(comm, call, MPI_ERR_RANK, "rank %d of a graph of %d nodes", rank, graph->nodes);
    const int begin = rank == 0 ? 0 : graph->ends[rank - 1];
    *first = graph->neighbours + begin;
    *count = graph->ends[rank] - begin;
    return MPI_SUCCESS;
}

int MPI_Graph_neighbors_count(MPI_Comm comm, int rank, int *nneighbors) {
    NOTE_CALLER();
    static const char call[] = "MPI_Graph_neighbors_count";
    const int *first;
    int count;
    int class = find_neighbours(comm, call, rank, &first, &count);
    if (class == MPI_SUCCESS) class = check_result(comm, call, nneighbors, "nneighbors");
    if (class == MPI_SUCCESS) *nneighbors = count;
    return class;
}

int MPI_Graph_neighbors(MPI_Comm comm, int rank, int maxneighbors, int neighbors[]) {
    NOTE_CALLER();
    static const char call[] = "MPI_Graph_neighbors";
    const int *first;
    int count;
    int class = find_neighbours(comm, call, rank, &first, &count);
    if (class == MPI_SUCCESS && count > 0 && maxneighbors > 0) class = check_result(comm, call, neighbors, "neighbors");
    if (class == MPI_SUCCESS) put_list(neighbors, maxneighbors, first, count);
    return class;
}
