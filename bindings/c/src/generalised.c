/* Generalised requests (MPI 3.1, 12.2): operations of the program's own, of whose ends it tells. */
#include "errors.h"
#include "internal.h"
#include "lines.h"

#include <stdlib.h>

/* What such a request keeps. */
struct generalised {
    MPI_Grequest_query_function *query;
    MPI_Grequest_free_function *free;
    MPI_Grequest_cancel_function *cancel;
    void *extra_state;
    MPI_Request handle; /* it names the request, also where the program has freed it, until it is at its end */
};

static int query_state(struct request *request) {
    const struct generalised *it = request->state;
    return it->query == NULL ? MPI_SUCCESS : it->query(it->extra_state, &request->end);
}

/* The program's function isn't called where the operation never ended: what it would give back may still be in use. */
static int forget_generalised(struct request *request) {
    struct generalised *it = request->state;
    int code = it->free == NULL || !request->is_ended ? MPI_SUCCESS : it->free(it->extra_state);
    free(it);
    return code;
}

static int cancel_generalised(const char *call, struct request *request) {
    const struct generalised *it = request->state;
    return it->cancel == NULL ? MPI_SUCCESS : raise_code(call, it->cancel(it->extra_state, request->is_ended));
}

static void say_generalised(struct line *line, struct request *request) {
    (void)request;
    add_text(line, "MPI_Grequest_complete of a generalised request");
}

static void say_generalised_left(struct line *line, struct request *request) {
    (void)request;
    add_text(line, "generalised request");
}

static const struct request_kind generalised_kind = {.query = query_state,
                                                     .cancel = cancel_generalised,
                                                     .forget = forget_generalised,
                                                     .say_wait = say_generalised,
                                                     .say_left = say_generalised_left};

int MPI_Grequest_start(MPI_Grequest_query_function *query_fn, MPI_Grequest_free_function *free_fn,
                       MPI_Grequest_cancel_function *cancel_fn, void *extra_state, MPI_Request *request) {
    NOTE_CALLER();
    static const char call[] = "MPI_Grequest_start";
    check_running(call);
    int class = check_result(MPI_COMM_WORLD, call, request, "request");
    if (class != MPI_SUCCESS) return class;
    struct generalised *made = malloc(sizeof *made);
    MPI_Request own = made == NULL ? MPI_REQUEST_NULL : open_request();
    if (own == MPI_REQUEST_NULL) {
        free(made);
        return raise_number(MPI_COMM_WORLD, call, NUMBER_NO_MEMORY);
    }
    *made = (struct generalised){query_fn, free_fn, cancel_fn, extra_state, own};
    *request_of(own) = (struct request){.kind = &generalised_kind,
                                        .state = made,
                                        .comm = hold_communicator(communicator_of(MPI_COMM_WORLD)),
                                        .end = empty_status(),
                                        .age = next_age(),
                                        .caller = process.caller};
    *request = own;
    return MPI_SUCCESS;
}

/* Whether a request that the program let go is the one of this handle. */
static bool is_named(const struct request *request, const void *handle) {
    const struct generalised *it = request->state;
    return request->kind == &generalised_kind && it->handle == *(const MPI_Request *)handle;
}

int MPI_Grequest_complete(MPI_Request request) {
    NOTE_CALLER();
    static const char call[] = "MPI_Grequest_complete";
    check_running(call);
    struct request *found = request_of(request), *freed = find_freed(is_named, &request);
    if (freed != NULL) {
        freed->is_ended = true;
        return raise_code(call, end_freed(freed));
    }
    if (found == NULL || found->kind != &generalised_kind)
        return raise_on(MPI_COMM_WORLD, call, MPI_ERR_REQUEST, "a handle that is no generalised request");
    if (found->is_ended) return raise_on(MPI_COMM_WORLD, call, MPI_ERR_REQUEST, "the request is complete already");
    found->is_ended = true;
    note_news();
    return MPI_SUCCESS;
}
