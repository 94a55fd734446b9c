/* Calls of MPI that become plans: see plan_calls.h. */
#include "plan_calls.h"

#include "errors.h"
#include "explored.h"
#include "explored_plans.h"
#include "watches.h"

#include <stdlib.h>

int check_asked(struct asked *asked) {
    check_running(asked->name);
    int class = check_comm(asked->handle, asked->name, &asked->comm);
    if (class == MPI_SUCCESS && !asked->waits)
        class = check_result(asked->handle, asked->name, asked->request, "request");
    return class;
}

#define LIMIT_OF_PERSISTENT "16,384 persistent collectives of a communicator are there at one of its members"
_Static_assert(MOST_PERSISTENT == 16384, "what is said of the limit is so");

static int no_memory(const struct asked *asked) {
    return raise_on(asked->handle, asked->name, MPI_ERR_NO_MEM, "no memory for a collective");
}

/* ---- blocks ---- */

static bool make_list(struct places *made, int number) {
    *made = (struct places){.count = (size_t)number};
    made->list = calloc((size_t)number + 1, sizeof *made->list);
    if (made->list == NULL) made->count = 0;
    return made->list != NULL;
}

/* Checks one block, and finds its place; `behind` items stand before it where no displacements are given. */
static int find_block(const struct asked *asked, const struct blocks *blocks, int at, size_t behind,
                      struct place *found) {
    int count = blocks->counts == NULL ? blocks->count : blocks->counts[at];
    struct datatype *type;
    int class = check_count(asked->handle, asked->name, count);
    if (class == MPI_SUCCESS)
        class = check_type(asked->handle, asked->name, blocks->types == NULL ? blocks->type : blocks->types[at], &type);
    if (class == MPI_SUCCESS) class = check_buffer(asked->handle, asked->name, blocks->at, count, type);
    if (class != MPI_SUCCESS) return class;
    ptrdiff_t from = blocks->displacements == NULL ? (ptrdiff_t)behind : blocks->displacements[at];
    if (blocks->addresses != NULL) from = blocks->addresses[at];
    if (blocks->types == NULL) from *= type->layout.numbers.extent;
    /* An address may be NULL where there are no data. */
    void *own = from == 0 ? (void *)blocks->at : (char *)blocks->at + from;
    *found = (struct place){own, (size_t)count, type};
    hold_type(type);
    return MPI_SUCCESS;
}

int list_blocks(const struct asked *asked, const struct blocks *blocks, int number, struct places *made) {
    size_t behind = 0;
    if ((blocks->counts == NULL && blocks->count < 0) || blocks->at == MPI_IN_PLACE) {
        *made = (struct places){0};
        if (blocks->at != MPI_IN_PLACE) return check_count(asked->handle, asked->name, blocks->count);
        return raise_on(asked->handle, asked->name, MPI_ERR_BUFFER, "MPI_IN_PLACE can't stand here");
    }
    if (!make_list(made, number)) return no_memory(asked);
    for (int at = 0; at < number; at++) {
        int class = find_block(asked, blocks, at, behind, &made->list[at]);
        if (class != MPI_SUCCESS) {
            free_places(made);
            return class;
        }
        behind += made->list[at].count;
    }
    return MPI_SUCCESS;
}

int list_again(const struct asked *asked, const struct places *places, int from, int number, struct places *made) {
    if (!make_list(made, number)) return no_memory(asked);
    for (int at = 0; at < number; at++) {
        made->list[at] = places->list[from + at];
        if (made->list[at].type != NULL) hold_type(made->list[at].type);
    }
    return MPI_SUCCESS;
}

/* ---- checks ---- */

int check_own_places(const struct asked *asked, struct place given, struct place got) {
    size_t out = place_length(given), in = place_length(got);
    if (out != in)
        return raise_on(asked->handle, asked->name, MPI_ERR_COUNT, "it sends itself %zu bytes and receives %zu", out,
                        in);
    if (out != 0 && given.type->basic != got.type->basic)
        return raise_on(asked->handle, asked->name, MPI_ERR_TYPE, "it sends itself another type than it receives");
    return MPI_SUCCESS;
}

int check_apart_places(const struct asked *asked, const void *sendbuf, const void *recvbuf, size_t bytes) {
    if (sendbuf != recvbuf || bytes == 0) return MPI_SUCCESS;
    return raise_on(asked->handle, asked->name, MPI_ERR_BUFFER,
                    "sendbuf is recvbuf: one of them has to be MPI_IN_PLACE");
}

/* ---- beginning ---- */

static int drop_call(struct plan_call *call, int class) {
    if (call->persistent != 0) forget_persistent(call->comm, call->persistent - 1);
    free_places(&call->given);
    free_places(&call->got);
    free(call->steps);
    free(call->spare);
    return class;
}

/* Waits for its end. */
static int carry_to_end(const struct asked *asked, struct plan_call *call) {
    struct request own = {.kind = &plan_kind, .comm = call->comm, .caller = process.caller};
    own.state = make_plan(call, &own);
    if (own.state == NULL) return drop_call(call, no_memory(asked));
    watch_plan(&own, call);
    start_plan(own.state);
    uint32_t number = await_request(&own);
    drop_watch(&own);
    int class = number == 0 ? MPI_SUCCESS : raise_end(asked->name, &own);
    end_plan(own.state);
    return class;
}

/* Gives a persistent one its number: 0, or a class. */
static int number_call(const struct asked *asked, struct plan_call *call) {
    uint32_t made;
    uint32_t number = number_persistent(asked->comm, &made);
    if (number == 0) call->persistent = made + 1;
    return number == 0 ? MPI_SUCCESS : raise_limited(asked->handle, asked->name, number, LIMIT_OF_PERSISTENT);
}

int carry_out(const struct asked *asked, struct plan_call *call) {
    call->name = asked->name;
    call->comm = asked->comm;
    call->waits = asked->waits;
    const bool is_straight = is_explored && (!asked->waits || (leaves_early && can_be_left(call->kind)));
    if (is_straight && !go_straight(call)) return drop_call(call, no_memory(asked));
    if (asked->waits) return carry_to_end(asked, call);
    int class = asked->is_persistent ? number_call(asked, call) : MPI_SUCCESS;
    if (class != MPI_SUCCESS) return drop_call(call, class);
    MPI_Request handle = open_request();
    struct request *own = request_of(handle);
    if (own == NULL) return drop_call(call, no_memory(asked));
    *own = (struct request){.kind = &plan_kind, .caller = process.caller, .age = next_age()};
    own->comm = hold_communicator(asked->comm);
    own->state = make_plan(call, own);
    if (own->state == NULL) {
        close_request(&handle);
        return drop_call(call, no_memory(asked));
    }
    own->is_persistent = own->is_inactive = asked->is_persistent;
    if (asked->is_persistent) {
        explored_made(MADE_PERSISTENT, place_of_request(handle));
    } else {
        watch_plan(own, call);
        start_plan(own->state);
    }
    *asked->request = handle;
    return MPI_SUCCESS;
}
