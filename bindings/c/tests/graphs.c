/* Graphs and distributed graphs (MPI 3.1, 7.5.3 to 7.5.5): neighbours, weights, copies, what is refused. */
#include "test.h"

/* A ring with a chord from 0 to 2. */
static void check_graph(void) {
    int ends[] = {3, 5, 8, 10}, to[] = {1, 3, 2, 0, 2, 1, 3, 0, 2, 0}, nodes = -1, edges = -1, kind = -1, count = -1;
    int got_ends[4] = {0}, got[10] = {0}, near[3] = {-1, -1, -1};
    MPI_Comm graph, copy;
    MPI_Graph_create(MPI_COMM_WORLD, 4, ends, to, 0, &graph);
    CHECK((graph == MPI_COMM_NULL) == (test_rank >= 4));
    if (graph == MPI_COMM_NULL) return;
    MPI_Comm_dup(graph, &copy);
    MPI_Comm_free(&graph);
    MPI_Topo_test(copy, &kind);
    MPI_Graphdims_get(copy, &nodes, &edges);
    CHECK(kind == MPI_GRAPH && nodes == 4 && edges == 10);
    MPI_Graph_get(copy, 4, 10, got_ends, got);
    CHECK(memcmp(got_ends, ends, sizeof ends) == 0 && memcmp(got, to, sizeof to) == 0);
    MPI_Graph_neighbors_count(copy, 2, &count);
    MPI_Graph_neighbors(copy, 2, 3, near);
    CHECK(count == 3 && near[0] == 1 && near[1] == 3 && near[2] == 0);
    MPI_Graph_neighbors_count(copy, 0, &count);
    near[2] = -7;
    MPI_Graph_neighbors(copy, 0, 2, near);
    CHECK(count == 3 && near[0] == 1 && near[1] == 3 && near[2] == -7);
    MPI_Comm_free(&copy);
    MPI_Graph_map(MPI_COMM_WORLD, 4, ends, to, &count);
    CHECK(count == test_rank);
}

/* Each member tells its own edges: to the next one, with the own rank as weight. */
static void check_adjacent(void) {
    const int next = (test_rank + 1) % test_size, last = (test_rank + test_size - 1) % test_size;
    int in = -1, out = -1, weighted = -1, from[2] = {-1, -1}, to[2] = {-1, -1}, weigh[2] = {-1, -1},
        heavy[2] = {-1, -1};
    MPI_Comm ring, copy;
    MPI_Dist_graph_create_adjacent(MPI_COMM_WORLD, 1, &last, &last, 1, &next, &test_rank, MPI_INFO_NULL, 0, &ring);
    MPI_Comm_dup(ring, &copy);
    MPI_Comm_free(&ring);
    MPI_Dist_graph_neighbors_count(copy, &in, &out, &weighted);
    MPI_Dist_graph_neighbors(copy, 2, from, weigh, 2, to, heavy);
    CHECK(in == 1 && out == 1 && weighted && from[0] == last && to[0] == next && weigh[0] == last &&
          heavy[0] == test_rank);
    CHECK(from[1] == -1 && to[1] == -1);
    MPI_Topo_test(copy, &in);
    CHECK(in == MPI_DIST_GRAPH);
    MPI_Comm_free(&copy);
    MPI_Dist_graph_create_adjacent(MPI_COMM_WORLD, 0, NULL, MPI_UNWEIGHTED, 1, &next, MPI_UNWEIGHTED, MPI_INFO_NULL, 0,
                                   &ring);
    MPI_Dist_graph_neighbors_count(ring, &in, &out, &weighted);
    MPI_Dist_graph_neighbors(ring, 0, NULL, MPI_UNWEIGHTED, 1, to, MPI_UNWEIGHTED);
    CHECK(in == 0 && out == 1 && !weighted && to[0] == next);
    MPI_Comm_free(&ring);
}

/* Rank r tells all edges that come to rank r + 1: from each rank s, with weight 100 s + r + 1. */
static void check_told(void) {
    const int target = (test_rank + 1) % test_size;
    int sources[16], degrees[16], destinations[16], weights[16], in = -1, out = -1, weighted = -1, seen = 0;
    int from[16], to[16], weigh[16], heavy[16];
    MPI_Comm graph;
    for (int at = 0; at < test_size; at++) {
        sources[at] = at;
        degrees[at] = 1;
        destinations[at] = target;
        weights[at] = 100 * at + target;
    }
    MPI_Dist_graph_create(MPI_COMM_WORLD, test_size, sources, degrees, destinations, weights, MPI_INFO_NULL, 1, &graph);
    MPI_Dist_graph_neighbors_count(graph, &in, &out, &weighted);
    CHECK(in == test_size && out == test_size && weighted);
    MPI_Dist_graph_neighbors(graph, 16, from, weigh, 16, to, heavy);
    for (int at = 0; at < test_size; at++) {
        CHECK(weigh[at] == 100 * from[at] + test_rank && heavy[at] == 100 * test_rank + to[at]);
        seen += 1 << from[at];
    }
    CHECK(seen == (1 << test_size) - 1);
    MPI_Comm_free(&graph);
    /* Rank 0 alone tells of two edges. */
    int nodes[] = {test_size - 1, 0}, counts[] = {0, 2}, ends[] = {test_size - 1, 0};
    const int mine = test_rank == 0 ? 2 : 0;
    MPI_Dist_graph_create(MPI_COMM_WORLD, mine, nodes, counts, ends, MPI_UNWEIGHTED, MPI_INFO_NULL, 0, &graph);
    MPI_Dist_graph_neighbors_count(graph, &in, &out, &weighted);
    CHECK(!weighted && out == (test_rank == 0 ? 2 : 0));
    CHECK(in == (test_rank == 0) + (test_rank == test_size - 1));
    MPI_Comm_free(&graph);
}

static void check_refusals(void) {
    int ends[] = {1, 0}, to[] = {5, 0}, count = 0;
    MPI_Comm graph = MPI_COMM_SELF;
    return_errors();
    CHECK(class_of(MPI_Graph_create(MPI_COMM_WORLD, 1000, ends, to, 0, &graph)) == MPI_ERR_ARG);
    CHECK(class_of(MPI_Graph_create(MPI_COMM_WORLD, 2, ends, to, 0, &graph)) == MPI_ERR_ARG);
    CHECK(class_of(MPI_Graph_create(MPI_COMM_WORLD, 1, ends, to, 0, &graph)) == MPI_ERR_ARG);
    CHECK(class_of(MPI_Graph_neighbors_count(MPI_COMM_WORLD, 0, &count)) == MPI_ERR_TOPOLOGY);
    to[0] = 1000;
    CHECK(class_of(MPI_Dist_graph_create_adjacent(MPI_COMM_WORLD, 1, to, MPI_UNWEIGHTED, 0, NULL, MPI_UNWEIGHTED,
                                                  MPI_INFO_NULL, 0, &graph)) == MPI_ERR_RANK);
    CHECK(graph == MPI_COMM_SELF);
}

int main(int argc, char **argv) {
    test_begin(&argc, &argv);
    check_graph();
    check_adjacent();
    check_told();
    check_refusals();
    return test_end();
}
