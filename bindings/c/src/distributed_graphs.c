/* Distributed graphs (MPI 3.1, 7.5.4, 7.5.5): each member has the edges that come to it and go from it. */
#include "errors.h"
#include "info.h"
#include "internal.h"
#include "rows.h"
#include "topologies.h"

#include <stdlib.h>
#include <string.h>

/* An edge, as members tell one another of it. */
struct edge {
    int32_t from, to, weight;
};

/* ---- lists of edges ---- */

static bool is_list(const int *weights) { return weights != MPI_UNWEIGHTED && weights != MPI_WEIGHTS_EMPTY; }

/* Whether edges weigh something: all members say the same. */
static bool are_weights(const int *weights) { return weights != MPI_UNWEIGHTED; }

static int *copy_list(const int *list, int count) {
    int *made = calloc(count > 0 ? (size_t)count : 1, sizeof *made);
    if (made != NULL && count > 0 && is_list(list)) memcpy(made, list, (size_t)count * sizeof *made);
    return made;
}

static int no_memory(MPI_Comm comm, const char *call) {
    return raise_on(comm, call, MPI_ERR_NO_MEM, "no memory for a topology");
}

static bool is_whole(const struct edges *edges) {
    return edges->from != NULL && edges->from_weights != NULL && edges->to != NULL && edges->to_weights != NULL;
}

/* Checks ranks and weights: none of either is negative. */
static int check_list(MPI_Comm comm, const char *call, int count, const int *ranks, const int *weights) {
    const struct communicator *own = communicator_of(comm);
    if (count < 0) return raise_on(comm, call, MPI_ERR_ARG, "%d edges", count);
    if (count == 0) return MPI_SUCCESS;
    int class = check_result(comm, call, ranks, "a list of ranks");
    if (class == MPI_SUCCESS) class = check_result(comm, call, weights, "a list of weights");
    for (int at = 0; class == MPI_SUCCESS && at < count; at++)
        if (ranks[at] < 0 || ranks[at] >= own->size)
            class = raise_on(comm, call, MPI_ERR_RANK, "rank %d of a communicator of %d", ranks[at], own->size);
    for (int at = 0; class == MPI_SUCCESS && is_list(weights) && at < count; at++)
        if (weights[at] < 0) class = raise_on(comm, call, MPI_ERR_ARG, "a weight of %d", weights[at]);
    return class;
}

/* ---- each member tells its own edges ---- */

int MPI_Dist_graph_create_adjacent(MPI_Comm comm_old, int indegree, const int sources[], const int sourceweights[],
                                   int outdegree, const int destinations[], const int destweights[], MPI_Info info,
                                   int reorder, MPI_Comm *comm_dist_graph) {
    NOTE_CALLER();
    static const char call[] = "MPI_Dist_graph_create_adjacent";
    struct communicator *own;
    (void)reorder;
    check_running(call);
    int class = check_comm(comm_old, call, &own);
    if (class == MPI_SUCCESS) class = check_hints(comm_old, call, info);
    if (class == MPI_SUCCESS) class = check_result(comm_old, call, comm_dist_graph, "comm_dist_graph");
    if (class == MPI_SUCCESS) class = check_list(comm_old, call, indegree, sources, sourceweights);
    if (class == MPI_SUCCESS) class = check_list(comm_old, call, outdegree, destinations, destweights);
    if (class != MPI_SUCCESS) return class;
    struct topology *made = new_topology(MPI_DIST_GRAPH);
    if (made == NULL) return no_memory(comm_old, call);
    made->edges = (struct edges){
        .sources = indegree,
        .destinations = outdegree,
        .are_weighted = are_weights(sourceweights) || are_weights(destweights),
        .from = copy_list(sources, indegree),
        .from_weights = copy_list(sourceweights, indegree),
        .to = copy_list(destinations, outdegree),
        .to_weights = copy_list(destweights, outdegree),
    };
    if (is_whole(&made->edges)) return make_with_topology(comm_old, call, own->size, made, comm_dist_graph);
    release_topology(made);
    return no_memory(comm_old, call);
}

/* ---- members tell edges of any members ---- */

/* How many edges the members have told: the most of one of them, and whether they weigh anything. */
struct told {
    int32_t most, are_weighted;
};

/* All edges that members have told, in their order: a row of each, which begins with how many they are. */
static uint32_t gather_edges(const struct communicator *comm, const struct edge *own, size_t length,
                             struct edge **all) {
    const struct collective at_root = {comm, 0, ENGINE_INT32, sizeof(int32_t)};
    *all = malloc(length * (size_t)comm->size);
    if (*all == NULL) return NUMBER_NO_MEMORY;
    uint32_t number = gather_rows(at_root, own, length, (unsigned char *)*all);
    return number != 0 ? number : broadcast_row(at_root, *all, length * (size_t)comm->size);
}

/* The rows of edges that the members told: each has room for so many, and begins with how many there are. */
struct rows {
    const struct edge *first;
    int count, each;
};

/* Counts the edges that come to this rank and go from it, or puts them into the topology. */
static void take_edges(struct edges *edges, struct rows rows, int rank, bool is_put) {
    edges->sources = edges->destinations = 0;
    for (int row = 0; row < rows.count; row++) {
        const struct edge *told = rows.first + (size_t)row * (size_t)rows.each;
        for (const struct edge *it = told + 1; it <= told + told->from; it++) {
            if (is_put && it->to == rank) edges->from[edges->sources] = it->from;
            if (is_put && it->to == rank) edges->from_weights[edges->sources] = it->weight;
            if (is_put && it->from == rank) edges->to[edges->destinations] = it->to;
            if (is_put && it->from == rank) edges->to_weights[edges->destinations] = it->weight;
            edges->sources += it->to == rank;
            edges->destinations += it->from == rank;
        }
    }
}

static bool sort_edges(struct edges *edges, struct rows rows, int rank) {
    take_edges(edges, rows, rank, false);
    edges->from = copy_list(MPI_UNWEIGHTED, edges->sources);
    edges->from_weights = copy_list(MPI_UNWEIGHTED, edges->sources);
    edges->to = copy_list(MPI_UNWEIGHTED, edges->destinations);
    edges->to_weights = copy_list(MPI_UNWEIGHTED, edges->destinations);
    if (!is_whole(edges)) return false;
    take_edges(edges, rows, rank, true);
    return true;
}

/* The members of a new communicator tell one another their edges: 0, or a number. */
static uint32_t exchange_edges(const struct communicator *comm, struct edge *own, struct told told,
                               struct edges *edges) {
    const struct collective at_all = {comm, -1, ENGINE_INT32, sizeof(int32_t)};
    struct told all = told;
    struct edge *rows = NULL;
    uint32_t number = allreduce_rows(at_all, ENGINE_MAX, &told, sizeof told, &all);
    const int each = all.most + 1;
    struct edge *row = number == 0 ? calloc((size_t)each, sizeof *row) : NULL;
    if (number == 0 && row == NULL) number = NUMBER_NO_MEMORY;
    if (number == 0) {
        memcpy(row, own, (size_t)(told.most + 1) * sizeof *row);
        number = gather_edges(comm, row, (size_t)each * sizeof *row, &rows);
    }
    if (number == 0 && !sort_edges(edges, (struct rows){rows, comm->size, each}, comm->rank)) number = NUMBER_NO_MEMORY;
    edges->are_weighted = all.are_weighted;
    free(row);
    free(rows);
    return number;
}

/* A row of the edges that this member tells: how many, and each of them. NULL: there is no memory. */
static struct edge *tell_edges(int n, const int sources[], const int degrees[], const int destinations[],
                               const int weights[], int count) {
    struct edge *row = calloc((size_t)count + 1, sizeof *row);
    if (row == NULL) return NULL;
    int at = 0;
    for (int node = 0; node < n; node++)
        for (int edge = 0; edge < degrees[node]; edge++, at++)
            row[at + 1] = (struct edge){sources[node], destinations[at], is_list(weights) ? weights[at] : 0};
    row[0].from = count;
    return row;
}

/* Checks what a member tells, and counts its edges. */
static int check_told(MPI_Comm comm, const char *call, int n, const int sources[], const int degrees[],
                      const int destinations[], const int weights[], int *count) {
    *count = 0;
    int class = check_list(comm, call, n, sources, MPI_UNWEIGHTED);
    if (class == MPI_SUCCESS && n > 0) class = check_result(comm, call, degrees, "degrees");
    for (int node = 0; class == MPI_SUCCESS && node < n; node++) {
        if (degrees[node] < 0) class = raise_on(comm, call, MPI_ERR_ARG, "a degree of %d", degrees[node]);
        else *count += degrees[node];
    }
    return class != MPI_SUCCESS ? class : check_list(comm, call, *count, destinations, weights);
}

int MPI_Dist_graph_create(MPI_Comm comm_old, int n, const int sources[], const int degrees[], const int destinations[],
                          const int weights[], MPI_Info info, int reorder, MPI_Comm *comm_dist_graph) {
    NOTE_CALLER();
    static const char call[] = "MPI_Dist_graph_create";
    struct communicator *own;
    int count;
    (void)reorder;
    check_running(call);
    int class = check_comm(comm_old, call, &own);
    if (class == MPI_SUCCESS) class = check_hints(comm_old, call, info);
    if (class == MPI_SUCCESS) class = check_result(comm_old, call, comm_dist_graph, "comm_dist_graph");
    if (class == MPI_SUCCESS) class = check_told(comm_old, call, n, sources, degrees, destinations, weights, &count);
    if (class != MPI_SUCCESS) return class;
    struct topology *made = new_topology(MPI_DIST_GRAPH);
    struct edge *row = tell_edges(n, sources, degrees, destinations, weights, count);
    if (made == NULL || row == NULL) {
        free(row);
        release_topology(made);
        return no_memory(comm_old, call);
    }
    class = make_with_topology(comm_old, call, own->size, made, comm_dist_graph);
    uint32_t number = 0;
    if (class == MPI_SUCCESS)
        number = exchange_edges(communicator_of(*comm_dist_graph), row, (struct told){count, are_weights(weights)},
                                &made->edges);
    free(row);
    return number == 0 ? class : raise_number(comm_old, call, number);
}

/* ---- what is told of the neighbours ---- */

int MPI_Dist_graph_neighbors_count(MPI_Comm comm, int *indegree, int *outdegree, int *weighted) {
    NOTE_CALLER();
    static const char call[] = "MPI_Dist_graph_neighbors_count";
    struct communicator *own;
    check_running(call);
    int class = check_topology(comm, call, MPI_DIST_GRAPH, &own);
    if (class == MPI_SUCCESS) class = check_result(comm, call, indegree, "indegree");
    if (class == MPI_SUCCESS) class = check_result(comm, call, outdegree, "outdegree");
    if (class == MPI_SUCCESS) class = check_result(comm, call, weighted, "weighted");
    if (class != MPI_SUCCESS) return class;
    const struct edges *edges = &own->topology->edges;
    *indegree = edges->sources;
    *outdegree = edges->destinations;
    *weighted = edges->are_weighted;
    return MPI_SUCCESS;
}

/* Copies as much of a list as there is room for, where one is wanted. */
static void put_list(int *into, int room, const int *list, int count) {
    const int fit = count < room ? count : room;
    if (fit > 0 && into != NULL && is_list(into)) memcpy(into, list, (size_t)fit * sizeof *into);
}

int MPI_Dist_graph_neighbors(MPI_Comm comm, int maxindegree, int sources[], int sourceweights[], int maxoutdegree,
                             int destinations[], int destweights[]) {
    NOTE_CALLER();
    static const char call[] = "MPI_Dist_graph_neighbors";
    struct communicator *own;
    check_running(call);
    int class = check_topology(comm, call, MPI_DIST_GRAPH, &own);
    if (class == MPI_SUCCESS && maxindegree > 0) class = check_result(comm, call, sources, "sources");
    if (class == MPI_SUCCESS && maxoutdegree > 0) class = check_result(comm, call, destinations, "destinations");
    if (class != MPI_SUCCESS) return class;
    const struct edges *edges = &own->topology->edges;
    put_list(sources, maxindegree, edges->from, edges->sources);
    put_list(destinations, maxoutdegree, edges->to, edges->destinations);
    if (!edges->are_weighted) return MPI_SUCCESS;
    put_list(sourceweights, maxindegree, edges->from_weights, edges->sources);
    put_list(destweights, maxoutdegree, edges->to_weights, edges->destinations);
    return MPI_SUCCESS;
}
