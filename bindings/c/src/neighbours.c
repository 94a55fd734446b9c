/* Exchanges with neighbours (MPI 3.1, 7.6, 7.7): each member sends a block to each rank that its edges go to, in their
 * order, and receives one of each rank that they come from. They are carried out as plans are. */
#include "neighbours.h"
#include "engine_grids.h"
#include "errors.h"
#include "plan_calls.h"
#include "topologies.h"

#include <stdlib.h>
#include <string.h>

/* The ranks from which edges come, and to which they go; MPI_PROC_NULL beyond the end of a line of a grid. */
struct neighbours {
    bool is_grid;
    int sources, destinations;
    int *from, *to;
};

static void drop_neighbours(struct neighbours *of) {
    free(of->from);
    free(of->to);
}

/* Of a grid: in each dimension the rank before and the one behind (7.6). */
static void find_in_grid(const struct communicator *comm, struct neighbours *found) {
    const struct grid *grid = &comm->topology->grid;
    const size_t count = (size_t)grid->dimensions;
    for (int at = 0; at < found->sources; at++) {
        uint32_t to = 0;
        uint32_t number = kombazily_grid_shift(grid->sizes, count, grid->rings, count, (uint32_t)comm->rank,
                                               (size_t)at / 2, at % 2 == 0 ? -1 : 1, &to);
        found->from[at] = found->to[at] = number == 0 ? (int)to : MPI_PROC_NULL;
    }
}

/* Counts the neighbours. */
static struct neighbours count_neighbours(const struct communicator *comm) {
    const struct topology *topology = comm->topology;
    struct neighbours count = {0};
    count.is_grid = topology->kind == MPI_CART;
    if (count.is_grid) count.sources = count.destinations = 2 * topology->grid.dimensions;
    if (topology->kind == MPI_GRAPH) {
        const int *ends = topology->graph.ends;
        count.sources = count.destinations = ends[comm->rank] - (comm->rank == 0 ? 0 : ends[comm->rank - 1]);
    }
    if (topology->kind == MPI_DIST_GRAPH) {
        count.sources = topology->edges.sources;
        count.destinations = topology->edges.destinations;
    }
    return count;
}

void count_neighbours_of(const struct communicator *comm, int *sources, int *destinations) {
    const struct neighbours count = comm->topology == NULL ? (struct neighbours){0} : count_neighbours(comm);
    *sources = count.sources;
    *destinations = count.destinations;
}

/* Finds them, in their order: 0, or the class of an error, of which it has told the handler. */
static int find_neighbours(const struct asked *asked, struct neighbours *found) {
    const struct topology *topology = asked->comm->topology;
    if (topology == NULL)
        return raise_on(asked->handle, asked->name, MPI_ERR_TOPOLOGY, "%s has no topology", asked->comm->name);
    *found = count_neighbours(asked->comm);
    found->from = calloc((size_t)found->sources + 1, sizeof *found->from);
    found->to = calloc((size_t)found->destinations + 1, sizeof *found->to);
    if (found->from == NULL || found->to == NULL) {
        drop_neighbours(found);
        return raise_on(asked->handle, asked->name, MPI_ERR_NO_MEM, "no memory for a collective");
    }
    const int *from = topology->edges.from, *to = topology->edges.to;
    if (topology->kind == MPI_GRAPH)
        from = to = topology->graph.neighbours + topology->graph.ends[asked->comm->rank] - found->sources;
    if (topology->kind == MPI_CART) find_in_grid(asked->comm, found);
    else {
        memcpy(found->from, from, (size_t)found->sources * sizeof *from);
        memcpy(found->to, to, (size_t)found->destinations * sizeof *to);
    }
    return MPI_SUCCESS;
}

/* The next place behind `at` of a rank in a list, or `count`. */
static int next_of(const int *list, int count, int at, int rank) {
    for (at++; at < count; at++)
        if (list[at] == rank) return at;
    return count;
}

/* The steps: all receives, then all sends. What a member hands to itself is copied: its first such block becomes the
 * first one that comes of itself, and so on. In each dimension of a grid the block of the rank behind comes first: it
 * is the one that this rank sends to the one before it, and so first, where both are one rank (MPI 4.0, 8.6). */
static size_t put_steps(struct plan_step *steps, const struct neighbours *with, int own, bool is_one_block) {
    size_t count = 0;
    int self = -1;
    for (int turn = 0; turn < with->sources; turn++) {
        const int at = with->is_grid ? turn ^ 1 : turn;
        const struct plan_slot into = {SLOT_GOT, (uint32_t)at};
        if (with->from[at] == MPI_PROC_NULL) continue;
        if (with->from[at] != own) {
            steps[count++] = (struct plan_step){.kind = STEP_RECEIVE, .peer = (uint32_t)with->from[at], .into = into};
            continue;
        }
        self = next_of(with->to, with->destinations, self, own);
        if (self == with->destinations) continue;
        const struct plan_slot from = {SLOT_GIVEN, is_one_block ? 0 : (uint32_t)self};
        steps[count++] = (struct plan_step){.kind = STEP_COPY, .from = from, .into = into};
    }
    for (int at = 0; at < with->destinations; at++) {
        const struct plan_slot from = {SLOT_GIVEN, is_one_block ? 0 : (uint32_t)at};
        if (with->to[at] == MPI_PROC_NULL || with->to[at] == own) continue;
        steps[count++] = (struct plan_step){.kind = STEP_SEND, .peer = (uint32_t)with->to[at], .from = from};
    }
    return count;
}

/* Exchanges blocks; all neighbours get the same one, where the member hands in one alone. */
static int exchange(struct asked *asked, const struct blocks *sent, bool is_one_block, const struct blocks *received) {
    struct neighbours with = {0};
    struct plan_call call = {.kind = (enum plan_kind)PLAN_NEIGHBOURS};
    int class = check_asked(asked);
    if (class == MPI_SUCCESS) class = find_neighbours(asked, &with);
    if (class != MPI_SUCCESS) return class;
    class = list_blocks(asked, sent, is_one_block ? 1 : with.destinations, &call.given);
    if (class == MPI_SUCCESS) class = list_blocks(asked, received, with.sources, &call.got);
    if (class == MPI_SUCCESS) {
        call.steps = calloc((size_t)with.sources + (size_t)with.destinations + 1, sizeof *call.steps);
        if (call.steps == NULL)
            class = raise_on(asked->handle, asked->name, MPI_ERR_NO_MEM, "no memory for a collective");
        else call.step_count = put_steps(call.steps, &with, asked->comm->rank, is_one_block);
    }
    drop_neighbours(&with);
    if (class == MPI_SUCCESS) return carry_out(asked, &call);
    free_places(&call.given);
    free_places(&call.got);
    return class;
}

#define ROW(of_buffer, of_count, of_type)                                                                              \
    &(struct blocks) { .at = (of_buffer), .count = (of_count), .type = (of_type) }
#define ROWS(of_buffer, of_counts, of_places, of_type)                                                                 \
    &(struct blocks) { .at = (of_buffer), .counts = (of_counts), .displacements = (of_places), .type = (of_type) }
#define ANY(of_buffer, of_counts, of_places, of_types)                                                                 \
    &(struct blocks) { .at = (of_buffer), .counts = (of_counts), .addresses = (of_places), .types = (of_types) }

int MPI_Neighbor_allgather(const void *sendbuf, int sendcount, MPI_Datatype sendtype, void *recvbuf, int recvcount,
                           MPI_Datatype recvtype, MPI_Comm comm) {
    NOTE_CALLER();
    return exchange(BLOCKING("MPI_Neighbor_allgather", comm), ROW(sendbuf, sendcount, sendtype), true,
                    ROW(recvbuf, recvcount, recvtype));
}

int MPI_Ineighbor_allgather(const void *sendbuf, int sendcount, MPI_Datatype sendtype, void *recvbuf, int recvcount,
                            MPI_Datatype recvtype, MPI_Comm comm, MPI_Request *request) {
    NOTE_CALLER();
    return exchange(NONBLOCKING("MPI_Ineighbor_allgather", comm, request), ROW(sendbuf, sendcount, sendtype), true,
                    ROW(recvbuf, recvcount, recvtype));
}

int MPI_Neighbor_allgatherv(const void *sendbuf, int sendcount, MPI_Datatype sendtype, void *recvbuf,
                            const int recvcounts[], const int displs[], MPI_Datatype recvtype, MPI_Comm comm) {
    NOTE_CALLER();
    return exchange(BLOCKING("MPI_Neighbor_allgatherv", comm), ROW(sendbuf, sendcount, sendtype), true,
                    ROWS(recvbuf, recvcounts, displs, recvtype));
}

int MPI_Ineighbor_allgatherv(const void *sendbuf, int sendcount, MPI_Datatype sendtype, void *recvbuf,
                             const int recvcounts[], const int displs[], MPI_Datatype recvtype, MPI_Comm comm,
                             MPI_Request *request) {
    NOTE_CALLER();
    return exchange(NONBLOCKING("MPI_Ineighbor_allgatherv", comm, request), ROW(sendbuf, sendcount, sendtype), true,
                    ROWS(recvbuf, recvcounts, displs, recvtype));
}

int MPI_Neighbor_alltoall(const void *sendbuf, int sendcount, MPI_Datatype sendtype, void *recvbuf, int recvcount,
                          MPI_Datatype recvtype, MPI_Comm comm) {
    NOTE_CALLER();
    return exchange(BLOCKING("MPI_Neighbor_alltoall", comm), ROW(sendbuf, sendcount, sendtype), false,
                    ROW(recvbuf, recvcount, recvtype));
}

int MPI_Ineighbor_alltoall(const void *sendbuf, int sendcount, MPI_Datatype sendtype, void *recvbuf, int recvcount,
                           MPI_Datatype recvtype, MPI_Comm comm, MPI_Request *request) {
    NOTE_CALLER();
    return exchange(NONBLOCKING("MPI_Ineighbor_alltoall", comm, request), ROW(sendbuf, sendcount, sendtype), false,
                    ROW(recvbuf, recvcount, recvtype));
}

int MPI_Neighbor_alltoallv(const void *sendbuf, const int sendcounts[], const int sdispls[], MPI_Datatype sendtype,
                           void *recvbuf, const int recvcounts[], const int rdispls[], MPI_Datatype recvtype,
                           MPI_Comm comm) {
    NOTE_CALLER();
    return exchange(BLOCKING("MPI_Neighbor_alltoallv", comm), ROWS(sendbuf, sendcounts, sdispls, sendtype), false,
                    ROWS(recvbuf, recvcounts, rdispls, recvtype));
}

int MPI_Ineighbor_alltoallv(const void *sendbuf, const int sendcounts[], const int sdispls[], MPI_Datatype sendtype,
                            void *recvbuf, const int recvcounts[], const int rdispls[], MPI_Datatype recvtype,
                            MPI_Comm comm, MPI_Request *request) {
    NOTE_CALLER();
    return exchange(NONBLOCKING("MPI_Ineighbor_alltoallv", comm, request), ROWS(sendbuf, sendcounts, sdispls, sendtype),
                    false, ROWS(recvbuf, recvcounts, rdispls, recvtype));
}

int MPI_Neighbor_alltoallw(const void *sendbuf, const int sendcounts[], const MPI_Aint sdispls[],
                           const MPI_Datatype sendtypes[], void *recvbuf, const int recvcounts[],
                           const MPI_Aint rdispls[], const MPI_Datatype recvtypes[], MPI_Comm comm) {
    NOTE_CALLER();
    return exchange(BLOCKING("MPI_Neighbor_alltoallw", comm), ANY(sendbuf, sendcounts, sdispls, sendtypes), false,
                    ANY(recvbuf, recvcounts, rdispls, recvtypes));
}

int MPI_Ineighbor_alltoallw(const void *sendbuf, const int sendcounts[], const MPI_Aint sdispls[],
                            const MPI_Datatype sendtypes[], void *recvbuf, const int recvcounts[],
                            const MPI_Aint rdispls[], const MPI_Datatype recvtypes[], MPI_Comm comm,
                            MPI_Request *request) {
    NOTE_CALLER();
    return exchange(NONBLOCKING("MPI_Ineighbor_alltoallw", comm, request), ANY(sendbuf, sendcounts, sdispls, sendtypes),
                    false, ANY(recvbuf, recvcounts, rdispls, recvtypes));
}

/* ---- begun again and again ---- */

int MPI_Neighbor_allgather_init(const void *sendbuf, int sendcount, MPI_Datatype sendtype, void *recvbuf, int recvcount,
                                MPI_Datatype recvtype, MPI_Comm comm, MPI_Info info, MPI_Request *request) {
    NOTE_CALLER();
    (void)info;
    return exchange(PERSISTENT("MPI_Neighbor_allgather_init", comm, request), ROW(sendbuf, sendcount, sendtype), true,
                    ROW(recvbuf, recvcount, recvtype));
}

int MPI_Neighbor_allgatherv_init(const void *sendbuf, int sendcount, MPI_Datatype sendtype, void *recvbuf,
                                 const int recvcounts[], const int displs[], MPI_Datatype recvtype, MPI_Comm comm,
                                 MPI_Info info, MPI_Request *request) {
    NOTE_CALLER();
    (void)info;
    return exchange(PERSISTENT("MPI_Neighbor_allgatherv_init", comm, request), ROW(sendbuf, sendcount, sendtype), true,
                    ROWS(recvbuf, recvcounts, displs, recvtype));
}

int MPI_Neighbor_alltoall_init(const void *sendbuf, int sendcount, MPI_Datatype sendtype, void *recvbuf, int recvcount,
                               MPI_Datatype recvtype, MPI_Comm comm, MPI_Info info, MPI_Request *request) {
    NOTE_CALLER();
    (void)info;
    return exchange(PERSISTENT("MPI_Neighbor_alltoall_init", comm, request), ROW(sendbuf, sendcount, sendtype), false,
                    ROW(recvbuf, recvcount, recvtype));
}

int MPI_Neighbor_alltoallv_init(const void *sendbuf, const int sendcounts[], const int sdispls[], MPI_Datatype sendtype,
                                void *recvbuf, const int recvcounts[], const int rdispls[], MPI_Datatype recvtype,
                                MPI_Comm comm, MPI_Info info, MPI_Request *request) {
    NOTE_CALLER();
    (void)info;
    return exchange(PERSISTENT("MPI_Neighbor_alltoallv_init", comm, request),
                    ROWS(sendbuf, sendcounts, sdispls, sendtype), false, ROWS(recvbuf, recvcounts, rdispls, recvtype));
}

int MPI_Neighbor_alltoallw_init(const void *sendbuf, const int sendcounts[], const MPI_Aint sdispls[],
                                const MPI_Datatype sendtypes[], void *recvbuf, const int recvcounts[],
                                const MPI_Aint rdispls[], const MPI_Datatype recvtypes[], MPI_Comm comm, MPI_Info info,
                                MPI_Request *request) {
    NOTE_CALLER();
    (void)info;
    return exchange(PERSISTENT("MPI_Neighbor_alltoallw_init", comm, request),
                    ANY(sendbuf, sendcounts, sdispls, sendtypes), false, ANY(recvbuf, recvcounts, rdispls, recvtypes));
}
