/* Copies and parts of a communicator of which many were made already. An engine makes 4,094 communicators at most, and
 * each member of one has made as many of it as the others: so further ones have worlds of their own (worlds.h). The
 * first of all members hears what each wants, and tells each with whom it is from now on. */
#include "errors.h"
#include "intercommunicators.h"
#include "internal.h"
#include "invitations.h"
#include "plan_calls.h"
#include "worlds.h"

#include <stdlib.h>
#include <string.h>

/* What a member wants, and who it is. */
struct wish {
    int32_t colour, order;
    int32_t member;
};

/* ---- what all want ---- */

static bool put_place(struct places *made, void *at, size_t count) {
    struct datatype *bytes = datatype_of(MPI_BYTE);
    made->list = calloc(count, sizeof *made->list);
    if (made->list == NULL) return false;
    made->count = count;
    for (size_t number = 0; number < count; number++) {
        made->list[number] = (struct place){(struct wish *)at + number, sizeof(struct wish), bytes};
        hold_type(bytes);
    }
    return true;
}

/* All send theirs to the first member. */
static bool put_steps(struct plan_call *call) {
    const struct communicator *comm = call->comm;
    const int others = comm->all_size - 1;
    call->steps = calloc((size_t)comm->all_size, sizeof *call->steps);
    if (call->steps == NULL) return false;
    call->step_count = comm->all_rank == 0 ? (size_t)others : 1;
    for (int at = 0; comm->all_rank == 0 && at < others; at++)
        call->steps[at] =
            (struct plan_step){.kind = STEP_RECEIVE, .peer = (uint32_t)at + 1, .into = {SLOT_GOT, (uint32_t)at + 1}};
    if (comm->all_rank != 0) call->steps[0] = (struct plan_step){.kind = STEP_SEND, .peer = 0, .from = {SLOT_GIVEN, 0}};
    return true;
}

/* Gathers them at the first member: 0, or a class. */
static int gather(const struct asked *asked, struct wish *own, struct wish *all) {
    struct plan_call call = {.kind = (enum plan_kind)PLAN_COPY, .comm = asked->comm};
    const bool is_first = asked->comm->all_rank == 0;
    if (put_place(&call.given, own, 1) && (!is_first || put_place(&call.got, all, (size_t)asked->comm->all_size)) &&
        put_steps(&call))
        return carry_out(asked, &call);
    free_places(&call.given);
    free_places(&call.got);
    free(call.steps);
    return raise_on(asked->handle, asked->name, MPI_ERR_NO_MEM, "no memory for a communicator");
}

/* ---- who is with whom ---- */

/* By colours, in each in the order that is wished, and then by members (6.4.2). */
static int compare(const void *one, const void *other) {
    const struct wish *a = one, *b = other;
    if (a->colour != b->colour) return a->colour < b->colour ? -1 : 1;
    if (a->order != b->order) return a->order < b->order ? -1 : 1;
    return a->member < b->member ? -1 : a->member > b->member;
}

/* Tells the members of one colour: 0, or a number. The own invitation stays here. */
static uint32_t tell_part(const struct communicator *comm, const struct wish *part, int count, uint64_t mark,
                          struct invitation *own) {
    struct invitation it = {.mark = mark, .count = (uint32_t)count};
    uint32_t refusal = 0;
    if (part->colour >= 0) it.number = draw_number();
    if (part->colour < 0) it.count = 0;
    for (int at = 0; at < (int)it.count; at++) it.list[at] = (uint16_t)world_rank(comm, part[at].member);
    for (int at = 0; at < count && refusal == 0; at++) {
        struct engine_request begun;
        if (part[at].member == 0) *own = it;
        else refusal = begin_invitation(comm, part[at].member, 0, &it, &begun);
        if (part[at].member != 0 && refusal == 0) refusal = end_invitation(&begun);
    }
    return refusal;
}

static uint32_t tell_all(const struct communicator *comm, struct wish *all, uint64_t mark, struct invitation *own) {
    uint32_t refusal = 0;
    qsort(all, (size_t)comm->all_size, sizeof *all, compare);
    for (int at = 0, end; at < comm->all_size && refusal == 0; at = end) {
        for (end = at + 1; end < comm->all_size && all[end].colour == all[at].colour;) end++;
        refusal = tell_part(comm, all + at, end - at, mark, own);
    }
    return refusal;
}

/* ---- the communicator ---- */

/* The communicator of those that were told: none where there is no number. */
static int open_part(MPI_Comm comm, const char *call, const struct invitation *it, MPI_Comm *newcomm) {
    const struct communicator *own = communicator_of(comm);
    bool is_none = false;
    if (it->count == 0) return MPI_SUCCESS;
    uint16_t *list = malloc(it->count * sizeof *list);
    if (list == NULL) return raise_number(comm, call, NUMBER_NO_MEMORY);
    memcpy(list, it->list, it->count * sizeof *list);
    uint32_t number = open_group(it->number, list, (int)it->count, own, newcomm);
    if (number == 0 && is_inter(own)) number = part_groups(communicator_of(*newcomm), own, &is_none);
    if (number == 0 && !is_none) return MPI_SUCCESS;
    if (*newcomm != MPI_COMM_NULL) drop_communicator(*newcomm);
    *newcomm = MPI_COMM_NULL;
    return number == 0 ? MPI_SUCCESS : raise_number(comm, call, number);
}

int make_further(MPI_Comm comm, const char *call, const struct engine_call *entry, MPI_Comm *newcomm) {
    struct communicator *own = communicator_of(comm);
    const struct asked asked = {.name = call, .handle = comm, .waits = true, .comm = own};
    const bool is_copy = entry->kind == ENGINE_DUP;
    struct wish wish = {is_copy ? 0 : entry->colour, is_copy ? 0 : entry->order, own->all_rank};
    struct wish *all = calloc((size_t)own->all_size, sizeof *all);
    struct invitation it = {.count = 0};
    const uint64_t mark = ~mark_of((int)own->plans, NULL, 0);
    *newcomm = MPI_COMM_NULL;
    if (all == NULL) return raise_number(comm, call, NUMBER_NO_MEMORY);
    all[0] = wish;
    int class = gather(&asked, &wish, all);
    uint32_t number = 0;
    if (class == MPI_SUCCESS && own->all_rank == 0) number = tell_all(own, all, mark, &it);
    else if (class == MPI_SUCCESS) number = hear_invitation(own, 0, 0, mark, &it);
    free(all);
    if (number != 0) class = raise_number(comm, call, number);
    return class == MPI_SUCCESS ? open_part(comm, call, &it, newcomm) : class;
}
