/* Collectives of a root that go by plans (MPI 3.1, 5.4 to 5.6): those with a block of its own length for each member,
 * and the nonblocking ones (5.12). */
#include "errors.h"
#include "intercollectives.h"
#include "plan_calls.h"

static int check_rooted(struct asked *asked, int root) {
    int class = check_asked(asked);
    return class == MPI_SUCCESS ? check_root(asked->handle, asked->name, asked->comm, root) : class;
}

/* Frees what was listed, where something was wrong. */
static int drop(struct plan_call *call, int class) {
    free_places(&call->given);
    free_places(&call->got);
    return class;
}

/* Lists what the root has of all members, and of itself: it may stand there already. */
static int list_at_root(struct asked *asked, int root, const struct blocks *all, struct places *list,
                        const struct blocks *own, struct places *one) {
    const bool is_in_place = own->at == MPI_IN_PLACE;
    int class = list_blocks(asked, all, asked->comm->size, list);
    if (class != MPI_SUCCESS) return class;
    class = is_in_place ? list_again(asked, list, root, 1, one) : list_blocks(asked, own, 1, one);
    if (class != MPI_SUCCESS || is_in_place) return class;
    class = check_apart_places(asked, own->at, all->at, place_length(one->list[0]));
    return class == MPI_SUCCESS ? check_own_places(asked, one->list[0], list->list[root]) : class;
}

/* Block j of the root's result is what member j hands in. */
int gather_by_plan(struct asked *asked, int root, const struct blocks *send, const struct blocks *receive) {
    struct plan_call call = {.kind = PLAN_GATHER, .root = root};
    if (is_of_inter(asked->handle)) return inter_gather(asked, root, send, receive);
    int class = check_rooted(asked, root);
    if (class != MPI_SUCCESS) return class;
    class = asked->comm->rank == root ? list_at_root(asked, root, receive, &call.got, send, &call.given)
                                      : list_blocks(asked, send, 1, &call.given);
    return class == MPI_SUCCESS ? carry_out(asked, &call) : drop(&call, class);
}

int MPI_Gatherv(const void *sendbuf, int sendcount, MPI_Datatype sendtype, void *recvbuf, const int recvcounts[],
                const int displs[], MPI_Datatype recvtype, int root, MPI_Comm comm) {
    NOTE_CALLER();
    return gather_by_plan(
        BLOCKING("MPI_Gatherv", comm), root, &(struct blocks){.at = sendbuf, .count = sendcount, .type = sendtype},
        &(struct blocks){.at = recvbuf, .counts = recvcounts, .displacements = displs, .type = recvtype});
}

int MPI_Igatherv(const void *sendbuf, int sendcount, MPI_Datatype sendtype, void *recvbuf, const int recvcounts[],
                 const int displs[], MPI_Datatype recvtype, int root, MPI_Comm comm, MPI_Request *request) {
    NOTE_CALLER();
    return gather_by_plan(
        NONBLOCKING("MPI_Igatherv", comm, request), root,
        &(struct blocks){.at = sendbuf, .count = sendcount, .type = sendtype},
        &(struct blocks){.at = recvbuf, .counts = recvcounts, .displacements = displs, .type = recvtype});
}

int MPI_Igather(const void *sendbuf, int sendcount, MPI_Datatype sendtype, void *recvbuf, int recvcount,
                MPI_Datatype recvtype, int root, MPI_Comm comm, MPI_Request *request) {
    NOTE_CALLER();
    return gather_by_plan(NONBLOCKING("MPI_Igather", comm, request), root,
                          &(struct blocks){.at = sendbuf, .count = sendcount, .type = sendtype},
                          &(struct blocks){.at = recvbuf, .count = recvcount, .type = recvtype});
}

/* A member's result is what the root hands in for it. */
int scatter_by_plan(struct asked *asked, int root, const struct blocks *send, const struct blocks *receive) {
    struct plan_call call = {.kind = PLAN_SCATTER, .root = root};
    if (is_of_inter(asked->handle)) return inter_scatter(asked, root, send, receive);
    int class = check_rooted(asked, root);
    if (class != MPI_SUCCESS) return class;
    class = asked->comm->rank == root ? list_at_root(asked, root, send, &call.given, receive, &call.got)
                                      : list_blocks(asked, receive, 1, &call.got);
    return class == MPI_SUCCESS ? carry_out(asked, &call) : drop(&call, class);
}

int MPI_Scatterv(const void *sendbuf, const int sendcounts[], const int displs[], MPI_Datatype sendtype, void *recvbuf,
                 int recvcount, MPI_Datatype recvtype, int root, MPI_Comm comm) {
    NOTE_CALLER();
    return scatter_by_plan(
        BLOCKING("MPI_Scatterv", comm), root,
        &(struct blocks){.at = sendbuf, .counts = sendcounts, .displacements = displs, .type = sendtype},
        &(struct blocks){.at = recvbuf, .count = recvcount, .type = recvtype});
}

int MPI_Iscatterv(const void *sendbuf, const int sendcounts[], const int displs[], MPI_Datatype sendtype, void *recvbuf,
                  int recvcount, MPI_Datatype recvtype, int root, MPI_Comm comm, MPI_Request *request) {
    NOTE_CALLER();
    return scatter_by_plan(
        NONBLOCKING("MPI_Iscatterv", comm, request), root,
        &(struct blocks){.at = sendbuf, .counts = sendcounts, .displacements = displs, .type = sendtype},
        &(struct blocks){.at = recvbuf, .count = recvcount, .type = recvtype});
}

int MPI_Iscatter(const void *sendbuf, int sendcount, MPI_Datatype sendtype, void *recvbuf, int recvcount,
                 MPI_Datatype recvtype, int root, MPI_Comm comm, MPI_Request *request) {
    NOTE_CALLER();
    return scatter_by_plan(NONBLOCKING("MPI_Iscatter", comm, request), root,
                           &(struct blocks){.at = sendbuf, .count = sendcount, .type = sendtype},
                           &(struct blocks){.at = recvbuf, .count = recvcount, .type = recvtype});
}

/* Each member's result is what the root hands in. */
int broadcast_by_plan(struct asked *asked, int root, void *buffer, int count, MPI_Datatype datatype) {
    struct plan_call call = {.kind = PLAN_BROADCAST, .root = root};
    const struct blocks own = {.at = buffer, .count = count, .type = datatype};
    if (is_of_inter(asked->handle)) return inter_broadcast(asked, root, &own);
    int class = check_rooted(asked, root);
    if (class == MPI_SUCCESS) class = list_blocks(asked, &own, 1, &call.got);
    if (class == MPI_SUCCESS) class = list_again(asked, &call.got, 0, 1, &call.given);
    return class == MPI_SUCCESS ? carry_out(asked, &call) : drop(&call, class);
}

int MPI_Ibcast(void *buffer, int count, MPI_Datatype datatype, int root, MPI_Comm comm, MPI_Request *request) {
    NOTE_CALLER();
    return broadcast_by_plan(NONBLOCKING("MPI_Ibcast", comm, request), root, buffer, count, datatype);
}

static int barrier(struct asked *asked) {
    if (is_of_inter(asked->handle)) return inter_barrier(asked);
    int class = check_asked(asked);
    return class == MPI_SUCCESS ? carry_out(asked, &(struct plan_call){.kind = PLAN_BARRIER}) : class;
}

int MPI_Ibarrier(MPI_Comm comm, MPI_Request *request) {
    NOTE_CALLER();
    return barrier(NONBLOCKING("MPI_Ibarrier", comm, request));
}

/* ---- persistent (MPI 4.0, 6.13) ---- */

int MPI_Barrier_init(MPI_Comm comm, MPI_Info info, MPI_Request *request) {
    NOTE_CALLER();
    (void)info;
    return barrier(PERSISTENT("MPI_Barrier_init", comm, request));
}

int MPI_Bcast_init(void *buffer, int count, MPI_Datatype datatype, int root, MPI_Comm comm, MPI_Info info,
                   MPI_Request *request) {
    NOTE_CALLER();
    (void)info;
    return broadcast_by_plan(PERSISTENT("MPI_Bcast_init", comm, request), root, buffer, count, datatype);
}

int MPI_Gather_init(const void *sendbuf, int sendcount, MPI_Datatype sendtype, void *recvbuf, int recvcount,
                    MPI_Datatype recvtype, int root, MPI_Comm comm, MPI_Info info, MPI_Request *request) {
    NOTE_CALLER();
    (void)info;
    return gather_by_plan(PERSISTENT("MPI_Gather_init", comm, request), root,
                          &(struct blocks){.at = sendbuf, .count = sendcount, .type = sendtype},
                          &(struct blocks){.at = recvbuf, .count = recvcount, .type = recvtype});
}

int MPI_Gatherv_init(const void *sendbuf, int sendcount, MPI_Datatype sendtype, void *recvbuf, const int recvcounts[],
                     const int displs[], MPI_Datatype recvtype, int root, MPI_Comm comm, MPI_Info info,
                     MPI_Request *request) {
    NOTE_CALLER();
    (void)info;
    return gather_by_plan(
        PERSISTENT("MPI_Gatherv_init", comm, request), root,
        &(struct blocks){.at = sendbuf, .count = sendcount, .type = sendtype},
        &(struct blocks){.at = recvbuf, .counts = recvcounts, .displacements = displs, .type = recvtype});
}

int MPI_Scatter_init(const void *sendbuf, int sendcount, MPI_Datatype sendtype, void *recvbuf, int recvcount,
                     MPI_Datatype recvtype, int root, MPI_Comm comm, MPI_Info info, MPI_Request *request) {
    NOTE_CALLER();
    (void)info;
    return scatter_by_plan(PERSISTENT("MPI_Scatter_init", comm, request), root,
                           &(struct blocks){.at = sendbuf, .count = sendcount, .type = sendtype},
                           &(struct blocks){.at = recvbuf, .count = recvcount, .type = recvtype});
}

int MPI_Scatterv_init(const void *sendbuf, const int sendcounts[], const int displs[], MPI_Datatype sendtype,
                      void *recvbuf, int recvcount, MPI_Datatype recvtype, int root, MPI_Comm comm, MPI_Info info,
                      MPI_Request *request) {
    NOTE_CALLER();
    (void)info;
    return scatter_by_plan(
        PERSISTENT("MPI_Scatterv_init", comm, request), root,
        &(struct blocks){.at = sendbuf, .counts = sendcounts, .displacements = displs, .type = sendtype},
        &(struct blocks){.at = recvbuf, .count = recvcount, .type = recvtype});
}
