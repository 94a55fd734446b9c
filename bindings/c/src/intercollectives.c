/* Collectives over intercommunicators: see intercollectives.h. All go straight from each member that hands a block in
 * to each that is to have it; folds are in the order of the ranks of the other group. */
#include "intercollectives.h"

#include "errors.h"
#include "intercommunicators.h"

#include <limits.h>
#include <stdlib.h>

enum { NO_ROOT = MPI_ROOT - 1 };

bool is_of_inter(MPI_Comm comm) {
    const struct communicator *own = communicator_of(comm);
    return own != NULL && is_inter(own);
}

/* ---- steps ---- */

static struct plan_slot given(int place) { return (struct plan_slot){SLOT_GIVEN, (uint32_t)place}; }
static struct plan_slot got(int place) { return (struct plan_slot){SLOT_GOT, (uint32_t)place}; }
static struct plan_slot kept(int place) { return (struct plan_slot){SLOT_KEPT, (uint32_t)place}; }

static void put(struct plan_call *call, struct plan_step step) { call->steps[call->step_count++] = step; }

static void put_send(struct plan_call *call, int member, struct plan_slot from) {
    put(call, (struct plan_step){.kind = STEP_SEND, .peer = (uint32_t)member, .from = from});
}
static void put_receive(struct plan_call *call, int member, struct plan_slot into) {
    put(call, (struct plan_step){.kind = STEP_RECEIVE, .peer = (uint32_t)member, .into = into});
}

/* Receives a block of each of the other group, and folds them into the result. */
static void put_folds(struct plan_call *call) {
    const struct two_groups *groups = call->comm->groups;
    const int last = groups->other_size - 1;
    for (int rank = 0; rank <= last; rank++) put_receive(call, groups->other[rank], last == 0 ? got(0) : kept(rank));
    for (int rank = 1; rank <= last; rank++)
        put(call, (struct plan_step){.kind = STEP_FOLD,
                                     .from = kept(rank - 1),
                                     .high = kept(rank),
                                     .into = rank == last ? got(0) : kept(rank)});
}

/* What is wrong, or the plan. */
static int carry_out_or_drop(const struct asked *asked, struct plan_call *call, int class) {
    if (class == MPI_SUCCESS) return carry_out(asked, call);
    free_places(&call->given);
    free_places(&call->got);
    free(call->steps);
    free(call->spare);
    return class;
}

/* A plan of this kind, with room for its steps; where it has no root, that is NO_ROOT. 0, or a class. */
static int begin(struct asked *asked, enum plan_kind kind, int root, struct plan_call *call) {
    *call = (struct plan_call){.kind = kind, .root = root};
    int class = check_asked(asked);
    if (class == MPI_SUCCESS && root != NO_ROOT) class = check_root(asked->handle, asked->name, asked->comm, root);
    if (class != MPI_SUCCESS) return class;
    call->comm = asked->comm;
    /* No plan has more than three for each member. */
    call->steps = calloc(3 * (size_t)asked->comm->all_size, sizeof *call->steps);
    if (call->steps != NULL) return MPI_SUCCESS;
    return raise_on(asked->handle, asked->name, MPI_ERR_NO_MEM, "no memory for a collective");
}

/* ---- of a root ---- */

int inter_broadcast(struct asked *asked, int root, const struct blocks *all) {
    struct plan_call call;
    int class = begin(asked, PLAN_BROADCAST, root, &call);
    const struct two_groups *groups = class == MPI_SUCCESS ? asked->comm->groups : NULL;
    if (class == MPI_SUCCESS && root != MPI_PROC_NULL)
        class = list_blocks(asked, all, 1, root == MPI_ROOT ? &call.given : &call.got);
    if (class == MPI_SUCCESS && root == MPI_ROOT)
        for (int rank = 0; rank < groups->other_size; rank++) put_send(&call, groups->other[rank], given(0));
    if (class == MPI_SUCCESS && root >= 0) put_receive(&call, groups->other[root], got(0));
    return carry_out_or_drop(asked, &call, class);
}

int inter_gather(struct asked *asked, int root, const struct blocks *send, const struct blocks *receive) {
    struct plan_call call;
    int class = begin(asked, PLAN_GATHER, root, &call);
    const struct two_groups *groups = class == MPI_SUCCESS ? asked->comm->groups : NULL;
    if (class == MPI_SUCCESS && root == MPI_ROOT) class = list_blocks(asked, receive, groups->other_size, &call.got);
    if (class == MPI_SUCCESS && root >= 0) class = list_blocks(asked, send, 1, &call.given);
    if (class == MPI_SUCCESS && root == MPI_ROOT)
        for (int rank = 0; rank < groups->other_size; rank++) put_receive(&call, groups->other[rank], got(rank));
    if (class == MPI_SUCCESS && root >= 0) put_send(&call, groups->other[root], given(0));
    return carry_out_or_drop(asked, &call, class);
}

int inter_scatter(struct asked *asked, int root, const struct blocks *send, const struct blocks *receive) {
    struct plan_call call;
    int class = begin(asked, PLAN_SCATTER, root, &call);
    const struct two_groups *groups = class == MPI_SUCCESS ? asked->comm->groups : NULL;
    if (class == MPI_SUCCESS && root == MPI_ROOT) class = list_blocks(asked, send, groups->other_size, &call.given);
    if (class == MPI_SUCCESS && root >= 0) class = list_blocks(asked, receive, 1, &call.got);
    if (class == MPI_SUCCESS && root == MPI_ROOT)
        for (int rank = 0; rank < groups->other_size; rank++) put_send(&call, groups->other[rank], given(rank));
    if (class == MPI_SUCCESS && root >= 0) put_receive(&call, groups->other[root], got(0));
    return carry_out_or_drop(asked, &call, class);
}

/* ---- of all ---- */

int inter_barrier(struct asked *asked) {
    struct plan_call call;
    int class = begin(asked, PLAN_BARRIER, NO_ROOT, &call);
    const struct two_groups *groups = class == MPI_SUCCESS ? asked->comm->groups : NULL;
    for (int rank = 0; class == MPI_SUCCESS && rank < groups->other_size; rank++)
        put_send(&call, groups->other[rank], given(0));
    for (int rank = 0; class == MPI_SUCCESS && rank < groups->other_size; rank++)
        put_receive(&call, groups->other[rank], kept(rank));
    return carry_out_or_drop(asked, &call, class);
}

/* Each hands a block to each of the other group: the same one to all, or one to each. */
static int exchange(struct asked *asked, enum plan_kind kind, const struct blocks *send, const struct blocks *receive) {
    const bool is_same = kind == PLAN_ALLGATHER;
    struct plan_call call;
    int class = begin(asked, kind, NO_ROOT, &call);
    const struct two_groups *groups = class == MPI_SUCCESS ? asked->comm->groups : NULL;
    if (class == MPI_SUCCESS) class = list_blocks(asked, receive, groups->other_size, &call.got);
    if (class == MPI_SUCCESS) class = list_blocks(asked, send, is_same ? 1 : groups->other_size, &call.given);
    for (int rank = 0; class == MPI_SUCCESS && rank < groups->other_size; rank++)
        put_receive(&call, groups->other[rank], got(rank));
    for (int rank = 0; class == MPI_SUCCESS && rank < groups->other_size; rank++)
        put_send(&call, groups->other[rank], given(is_same ? 0 : rank));
    return carry_out_or_drop(asked, &call, class);
}

int inter_allgather(struct asked *asked, const struct blocks *send, const struct blocks *receive) {
    return exchange(asked, PLAN_ALLGATHER, send, receive);
}

int inter_alltoall(struct asked *asked, const struct blocks *send, const struct blocks *receive) {
    return exchange(asked, PLAN_ALLTOALL, send, receive);
}

/* ---- reductions ---- */

/* The items that are handed in, and those that come. */
static int list_folded(const struct asked *asked, const struct folded *it, bool sends, bool gets,
                       struct plan_call *call) {
    const struct blocks in = {.at = it->sendbuf, .count = it->count, .type = it->type};
    const struct blocks out = {.at = it->recvbuf, .count = it->count, .type = it->type};
    int class = sends ? list_blocks(asked, &in, 1, &call->given) : MPI_SUCCESS;
    if (class == MPI_SUCCESS && gets) class = list_blocks(asked, &out, 1, &call->got);
    if (class == MPI_SUCCESS && (sends || gets))
        class = check_folding(asked, it, call, gets ? &call->got : &call->given);
    return class;
}

int inter_reduce(struct asked *asked, int root, const struct folded *it) {
    struct plan_call call;
    int class = begin(asked, PLAN_REDUCE, root, &call);
    if (class == MPI_SUCCESS) class = list_folded(asked, it, root >= 0, root == MPI_ROOT, &call);
    if (class == MPI_SUCCESS && root == MPI_ROOT) put_folds(&call);
    if (class == MPI_SUCCESS && root >= 0) put_send(&call, asked->comm->groups->other[root], given(0));
    return carry_out_or_drop(asked, &call, class);
}

int inter_allreduce(struct asked *asked, const struct folded *it) {
    struct plan_call call;
    int class = begin(asked, PLAN_ALLREDUCE, NO_ROOT, &call);
    const struct two_groups *groups = class == MPI_SUCCESS ? asked->comm->groups : NULL;
    if (class == MPI_SUCCESS) class = list_folded(asked, it, true, true, &call);
    for (int rank = 0; class == MPI_SUCCESS && rank < groups->other_size; rank++)
        put_send(&call, groups->other[rank], given(0));
    if (class == MPI_SUCCESS) put_folds(&call);
    return carry_out_or_drop(asked, &call, class);
}

/* ---- reduce_scatter: the first member of each group folds what the other one hands in, and scatters it ---- */

/* Room for so many items of a type, which is the call's spare room: 0, or a class. */
static int find_spare(const struct asked *asked, struct datatype *type, size_t count, struct plan_call *call,
                      struct place *made) {
    const struct layout *layout = &type->layout;
    /* An extent may be negative. */
    const ptrdiff_t last = count == 0 ? 0 : (ptrdiff_t)(count - 1) * layout->numbers.extent;
    const ptrdiff_t from = layout->numbers.true_lower + (last < 0 ? last : 0),
                    to = layout->numbers.true_upper + (last > 0 ? last : 0);
    call->spare = calloc(1, (size_t)(to - from) + 1);
    if (call->spare == NULL) return raise_on(asked->handle, asked->name, MPI_ERR_NO_MEM, "no memory for a collective");
    *made = (struct place){(char *)call->spare - from, count, type};
    return MPI_SUCCESS;
}

/* So many items of each of the own group, and of all of them. */
static int sum_counts(const struct asked *asked, const int counts[], int count, size_t *all) {
    int class = MPI_SUCCESS;
    *all = 0;
    for (int rank = 0; class == MPI_SUCCESS && rank < asked->comm->size; rank++) {
        const int own = counts == NULL ? count : counts[rank];
        class = check_count(asked->handle, asked->name, own);
        *all += class == MPI_SUCCESS ? (size_t)own : 0;
    }
    return class;
}

/* At the first member of a group: what all get comes into spare room, and its parts go to the others. Got(0) is the
 * whole, Got(1) what this member gets; Given(0) is what it hands in, those behind it are the parts. */
static int list_parts(struct asked *asked, const int counts[], const struct folded *it, struct place whole,
                      struct plan_call *call) {
    const int size = asked->comm->size;
    struct place *parts = calloc((size_t)size + 1, sizeof *parts), *results = calloc(2, sizeof *results);
    if (parts == NULL || results == NULL) {
        free(parts);
        free(results);
        return raise_on(asked->handle, asked->name, MPI_ERR_NO_MEM, "no memory for a collective");
    }
    parts[0] = call->given.list[0];
    results[0] = whole;
    results[1] = call->got.list[0];
    size_t behind = 0;
    for (int rank = 0; rank < size; rank++) {
        const size_t count = (size_t)(counts == NULL ? it->count : counts[rank]);
        parts[rank + 1] = (struct place){item_at(&whole.type->layout, whole.at, behind), count, whole.type};
        hold_type(whole.type);
        behind += count;
    }
    hold_type(whole.type);
    free(call->given.list);
    free(call->got.list);
    call->given = (struct places){(size_t)size + 1, parts};
    call->got = (struct places){2, results};
    return MPI_SUCCESS;
}

/* The steps of the first member: the whole, then its parts. */
static void put_parts(struct plan_call *call) {
    const struct two_groups *groups = call->comm->groups;
    put_folds(call);
    /* The parts stand in the whole: it has to be there first. */
    put(call, (struct plan_step){.kind = STEP_COPY, .from = got(0), .into = got(0)});
    put(call, (struct plan_step){.kind = STEP_COPY, .from = given(1), .into = got(1)});
    for (int rank = 1; rank < groups->size; rank++) put_send(call, groups->own[rank], given(rank + 1));
}

/* What the first member does beside handing its items in: 0, or a class. */
static int fold_and_scatter(struct asked *asked, const int counts[], const struct folded *it, size_t all,
                            struct plan_call *call) {
    struct place whole = {0};
    int class = find_spare(asked, call->got.list[0].type, all, call, &whole);
    if (class == MPI_SUCCESS) class = list_parts(asked, counts, it, whole, call);
    if (class == MPI_SUCCESS) put_parts(call);
    return class;
}

int inter_reduce_scatter(struct asked *asked, const int counts[], const struct folded *it) {
    struct plan_call call;
    size_t all = 0;
    int class = begin(asked, PLAN_REDUCE_SCATTER, NO_ROOT, &call);
    const struct two_groups *groups = class == MPI_SUCCESS ? asked->comm->groups : NULL;
    if (class == MPI_SUCCESS) class = sum_counts(asked, counts, it->count, &all);
    if (class != MPI_SUCCESS) return carry_out_or_drop(asked, &call, class);
    const int rank = asked->comm->rank;
    const struct blocks in = {.at = it->sendbuf, .count = all < INT_MAX ? (int)all : INT_MAX, .type = it->type};
    const struct blocks out = {.at = it->recvbuf, .count = counts == NULL ? it->count : counts[rank], .type = it->type};
    if (class == MPI_SUCCESS) class = list_blocks(asked, &in, 1, &call.given);
    if (class == MPI_SUCCESS) call.given.list[0].count = all;
    if (class == MPI_SUCCESS) class = list_blocks(asked, &out, 1, &call.got);
    if (class == MPI_SUCCESS) class = check_folding(asked, it, &call, &call.got);
    if (class == MPI_SUCCESS) put_send(&call, groups->other[0], given(0));
    if (class == MPI_SUCCESS && rank != 0) put_receive(&call, groups->own[0], got(0));
    if (class == MPI_SUCCESS && rank == 0) class = fold_and_scatter(asked, counts, it, all, &call);
    return carry_out_or_drop(asked, &call, class);
}
