/* Reductions that go by plans (MPI 3.1, 5.9 to 5.12): scans, reduce_scatter, all nonblocking ones, and those by
 * functions of the program. All fold in the order of the ranks. */
#include "prefixes.h"

#include "errors.h"
#include "intercollectives.h"
#include "intercommunicators.h"

int check_folding(const struct asked *asked, const struct folded *it, struct plan_call *call,
                  const struct places *places) {
    call->folding.handle = it->type;
    return check_operation(asked->handle, asked->name, it->op, places->list[0].type, &call->folding.operation);
}

/* Frees what was listed, where something was wrong. */
static int drop(struct plan_call *call, int class) {
    free_places(&call->given);
    free_places(&call->got);
    return class;
}

/* A reduction in which each member hands in one block and gets one. */
static int fold_one(struct asked *asked, enum plan_kind kind, const struct folded *it) {
    struct plan_call call = {.kind = kind};
    const bool is_in_place = it->sendbuf == MPI_IN_PLACE;
    if (kind == PLAN_ALLREDUCE && is_of_inter(asked->handle)) return inter_allreduce(asked, it);
    int class = check_asked(asked);
    if (class == MPI_SUCCESS) class = check_intra(asked->handle, asked->name, asked->comm);
    if (class == MPI_SUCCESS)
        class =
            list_blocks(asked, &(struct blocks){.at = it->recvbuf, .count = it->count, .type = it->type}, 1, &call.got);
    if (class != MPI_SUCCESS) return class;
    class = is_in_place ? list_again(asked, &call.got, 0, 1, &call.given)
                        : list_blocks(asked, &(struct blocks){.at = it->sendbuf, .count = it->count, .type = it->type},
                                      1, &call.given);
    if (class == MPI_SUCCESS) class = check_folding(asked, it, &call, &call.got);
    if (class == MPI_SUCCESS && !is_in_place)
        class = check_apart_places(asked, it->sendbuf, it->recvbuf, place_length(call.given.list[0]));
    return class == MPI_SUCCESS ? carry_out(asked, &call) : drop(&call, class);
}

int MPI_Scan(const void *sendbuf, void *recvbuf, int count, MPI_Datatype datatype, MPI_Op op, MPI_Comm comm) {
    NOTE_CALLER();
    return fold_one(BLOCKING("MPI_Scan", comm), PLAN_SCAN, &(struct folded){sendbuf, recvbuf, count, datatype, op});
}

int MPI_Iscan(const void *sendbuf, void *recvbuf, int count, MPI_Datatype datatype, MPI_Op op, MPI_Comm comm,
              MPI_Request *request) {
    NOTE_CALLER();
    return fold_one(NONBLOCKING("MPI_Iscan", comm, request), PLAN_SCAN,
                    &(struct folded){sendbuf, recvbuf, count, datatype, op});
}

int MPI_Exscan(const void *sendbuf, void *recvbuf, int count, MPI_Datatype datatype, MPI_Op op, MPI_Comm comm) {
    NOTE_CALLER();
    return fold_one(BLOCKING("MPI_Exscan", comm), PLAN_EXSCAN, &(struct folded){sendbuf, recvbuf, count, datatype, op});
}

int MPI_Iexscan(const void *sendbuf, void *recvbuf, int count, MPI_Datatype datatype, MPI_Op op, MPI_Comm comm,
                MPI_Request *request) {
    NOTE_CALLER();
    return fold_one(NONBLOCKING("MPI_Iexscan", comm, request), PLAN_EXSCAN,
                    &(struct folded){sendbuf, recvbuf, count, datatype, op});
}

int MPI_Iallreduce(const void *sendbuf, void *recvbuf, int count, MPI_Datatype datatype, MPI_Op op, MPI_Comm comm,
                   MPI_Request *request) {
    NOTE_CALLER();
    return fold_one(NONBLOCKING("MPI_Iallreduce", comm, request), PLAN_ALLREDUCE,
                    &(struct folded){sendbuf, recvbuf, count, datatype, op});
}

int allreduce_by_plan(const void *sendbuf, void *recvbuf, int count, MPI_Datatype datatype, MPI_Op op, MPI_Comm comm) {
    return fold_one(BLOCKING("MPI_Allreduce", comm), PLAN_ALLREDUCE,
                    &(struct folded){sendbuf, recvbuf, count, datatype, op});
}

/* ---- to a root ---- */

static int fold_to_root(struct asked *asked, int root, const struct folded *it) {
    struct plan_call call = {.kind = PLAN_REDUCE, .root = root};
    if (is_of_inter(asked->handle)) return inter_reduce(asked, root, it);
    int class = check_asked(asked);
    if (class == MPI_SUCCESS) class = check_root(asked->handle, asked->name, asked->comm, root);
    if (class != MPI_SUCCESS) return class;
    const bool is_root = asked->comm->rank == root, is_in_place = is_root && it->sendbuf == MPI_IN_PLACE;
    const struct blocks own = {.at = is_in_place ? it->recvbuf : it->sendbuf, .count = it->count, .type = it->type};
    class = list_blocks(asked, &own, 1, &call.given);
    if (class != MPI_SUCCESS) return class;
    if (is_root)
        class =
            list_blocks(asked, &(struct blocks){.at = it->recvbuf, .count = it->count, .type = it->type}, 1, &call.got);
    if (class == MPI_SUCCESS) class = check_folding(asked, it, &call, &call.given);
    if (class == MPI_SUCCESS && is_root && !is_in_place)
        class = check_apart_places(asked, it->sendbuf, it->recvbuf, place_length(call.given.list[0]));
    return class == MPI_SUCCESS ? carry_out(asked, &call) : drop(&call, class);
}

int MPI_Ireduce(const void *sendbuf, void *recvbuf, int count, MPI_Datatype datatype, MPI_Op op, int root,
                MPI_Comm comm, MPI_Request *request) {
    NOTE_CALLER();
    return fold_to_root(NONBLOCKING("MPI_Ireduce", comm, request), root,
                        &(struct folded){sendbuf, recvbuf, count, datatype, op});
}

int reduce_by_plan(const void *sendbuf, void *recvbuf, int count, MPI_Datatype datatype, MPI_Op op, int root,
                   MPI_Comm comm) {
    return fold_to_root(BLOCKING("MPI_Reduce", comm), root, &(struct folded){sendbuf, recvbuf, count, datatype, op});
}

/* ---- reduce_scatter ---- */

/* Each gets the fold of what all hand in for it: `counts` items, or as many each. */
static int fold_each(struct asked *asked, const int counts[], const struct folded *it) {
    struct plan_call call = {.kind = PLAN_REDUCE_SCATTER};
    if (is_of_inter(asked->handle)) return inter_reduce_scatter(asked, counts, it);
    const bool is_in_place = it->sendbuf == MPI_IN_PLACE;
    int class = check_asked(asked);
    if (class == MPI_SUCCESS && counts == NULL && it->count < 0)
        class = check_count(asked->handle, asked->name, it->count);
    if (class != MPI_SUCCESS) return class;
    const struct blocks all = {
        .at = is_in_place ? it->recvbuf : it->sendbuf, .count = it->count, .counts = counts, .type = it->type};
    class = list_blocks(asked, &all, asked->comm->size, &call.given);
    if (class != MPI_SUCCESS) return class;
    const int own = counts == NULL ? it->count : counts[asked->comm->rank];
    class = list_blocks(asked, &(struct blocks){.at = it->recvbuf, .count = own, .type = it->type}, 1, &call.got);
    if (class == MPI_SUCCESS) class = check_folding(asked, it, &call, &call.got);
    if (class == MPI_SUCCESS && !is_in_place)
        class = check_apart_places(asked, it->sendbuf, it->recvbuf, place_length(call.got.list[0]));
    return class == MPI_SUCCESS ? carry_out(asked, &call) : drop(&call, class);
}

int MPI_Reduce_scatter(const void *sendbuf, void *recvbuf, const int recvcounts[], MPI_Datatype datatype, MPI_Op op,
                       MPI_Comm comm) {
    NOTE_CALLER();
    return fold_each(BLOCKING("MPI_Reduce_scatter", comm), recvcounts,
                     &(struct folded){sendbuf, recvbuf, 0, datatype, op});
}

int MPI_Ireduce_scatter(const void *sendbuf, void *recvbuf, const int recvcounts[], MPI_Datatype datatype, MPI_Op op,
                        MPI_Comm comm, MPI_Request *request) {
    NOTE_CALLER();
    return fold_each(NONBLOCKING("MPI_Ireduce_scatter", comm, request), recvcounts,
                     &(struct folded){sendbuf, recvbuf, 0, datatype, op});
}

int MPI_Reduce_scatter_block(const void *sendbuf, void *recvbuf, int recvcount, MPI_Datatype datatype, MPI_Op op,
                             MPI_Comm comm) {
    NOTE_CALLER();
    return fold_each(BLOCKING("MPI_Reduce_scatter_block", comm), NULL,
                     &(struct folded){sendbuf, recvbuf, recvcount, datatype, op});
}

int MPI_Ireduce_scatter_block(const void *sendbuf, void *recvbuf, int recvcount, MPI_Datatype datatype, MPI_Op op,
                              MPI_Comm comm, MPI_Request *request) {
    NOTE_CALLER();
    return fold_each(NONBLOCKING("MPI_Ireduce_scatter_block", comm, request), NULL,
                     &(struct folded){sendbuf, recvbuf, recvcount, datatype, op});
}

/* ---- persistent (MPI 4.0, 6.13) ---- */

int MPI_Reduce_init(const void *sendbuf, void *recvbuf, int count, MPI_Datatype datatype, MPI_Op op, int root,
                    MPI_Comm comm, MPI_Info info, MPI_Request *request) {
    NOTE_CALLER();
    (void)info;
    return fold_to_root(PERSISTENT("MPI_Reduce_init", comm, request), root,
                        &(struct folded){sendbuf, recvbuf, count, datatype, op});
}

int MPI_Allreduce_init(const void *sendbuf, void *recvbuf, int count, MPI_Datatype datatype, MPI_Op op, MPI_Comm comm,
                       MPI_Info info, MPI_Request *request) {
    NOTE_CALLER();
    (void)info;
    return fold_one(PERSISTENT("MPI_Allreduce_init", comm, request), PLAN_ALLREDUCE,
                    &(struct folded){sendbuf, recvbuf, count, datatype, op});
}

int MPI_Scan_init(const void *sendbuf, void *recvbuf, int count, MPI_Datatype datatype, MPI_Op op, MPI_Comm comm,
                  MPI_Info info, MPI_Request *request) {
    NOTE_CALLER();
    (void)info;
    return fold_one(PERSISTENT("MPI_Scan_init", comm, request), PLAN_SCAN,
                    &(struct folded){sendbuf, recvbuf, count, datatype, op});
}

int MPI_Exscan_init(const void *sendbuf, void *recvbuf, int count, MPI_Datatype datatype, MPI_Op op, MPI_Comm comm,
                    MPI_Info info, MPI_Request *request) {
    NOTE_CALLER();
    (void)info;
    return fold_one(PERSISTENT("MPI_Exscan_init", comm, request), PLAN_EXSCAN,
                    &(struct folded){sendbuf, recvbuf, count, datatype, op});
}

int MPI_Reduce_scatter_init(const void *sendbuf, void *recvbuf, const int recvcounts[], MPI_Datatype datatype,
                            MPI_Op op, MPI_Comm comm, MPI_Info info, MPI_Request *request) {
    NOTE_CALLER();
    (void)info;
    return fold_each(PERSISTENT("MPI_Reduce_scatter_init", comm, request), recvcounts,
                     &(struct folded){sendbuf, recvbuf, 0, datatype, op});
}

int MPI_Reduce_scatter_block_init(const void *sendbuf, void *recvbuf, int recvcount, MPI_Datatype datatype, MPI_Op op,
                                  MPI_Comm comm, MPI_Info info, MPI_Request *request) {
    NOTE_CALLER();
    (void)info;
    return fold_each(PERSISTENT("MPI_Reduce_scatter_block_init", comm, request), NULL,
                     &(struct folded){sendbuf, recvbuf, recvcount, datatype, op});
}
