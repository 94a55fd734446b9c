/* Requests: operations that were begun, until the program was told of their ends (MPI 3.1, 3.7 and 3.8.4). */
#include "errors.h"
#include "explored.h"
#include "intercommunicators.h"
#include "internal.h"
#include "plan_runs.h"
#include "table.h"
#include "types.h"
#include "wait_lines.h"
#include "watches.h"

#include <stdio.h>
#include <stdlib.h>

static struct table requests = TABLE_OF(KIND_REQUEST);

/* ---- statuses ---- */

MPI_Status empty_status(void) {
    return (MPI_Status){.MPI_SOURCE = MPI_ANY_SOURCE, .MPI_TAG = MPI_ANY_TAG, .MPI_ERROR = MPI_SUCCESS};
}

/* The bytes of one element of a basic type of the engine. */
static MPI_Count size_of_basic(uint32_t basic) {
    static const unsigned char sizes[] = {
        [ENGINE_INT8] = 1,  [ENGINE_INT16] = 2,   [ENGINE_INT32] = 4,  [ENGINE_INT64] = 8,
        [ENGINE_UINT8] = 1, [ENGINE_UINT16] = 2,  [ENGINE_UINT32] = 4, [ENGINE_UINT64] = 8,
        [ENGINE_BYTE] = 1,  [ENGINE_FLOAT32] = 4, [ENGINE_FLOAT64] = 8};
    return basic < sizeof sizes ? sizes[basic] : 0;
}

MPI_Status status_of(const struct communicator *comm, const struct engine_answer *answer) {
    MPI_Status status = empty_status();
    status.MPI_SOURCE = answer->source == ENGINE_NULL ? MPI_PROC_NULL : rank_of_member(comm, answer->source);
    status.MPI_TAG = answer->tag == ENGINE_ANY ? MPI_ANY_TAG : answer->tag;
    status.reserved_bytes = (MPI_Count)answer->count * size_of_basic(answer->basic);
    return status;
}

void put_empty(MPI_Status *status) {
    if (status != MPI_STATUS_IGNORE) *status = empty_status();
}

void put_status(MPI_Status *status, const MPI_Status *of) {
    if (status == MPI_STATUS_IGNORE) return;
    /* A call for one request leaves MPI_ERROR as it was (3.2.5). */
    int error = status->MPI_ERROR;
    *status = *of;
    status->MPI_ERROR = error;
}

/* ---- one request ---- */

/* Puts the data that the last answer told of where the program wants them: 0, or 14. */
static uint32_t take_data(const struct request *request, uint64_t bytes) {
    if (bytes == 0) return 0;
    const struct layout *layout = &request->type->layout;
    size_t items = layout->numbers.size == 0 ? 0 : (size_t)(bytes + layout->numbers.size - 1) / layout->numbers.size;
    if (is_row(layout, items)) {
        take_from_engine(0, row_of(layout, request->buf), (size_t)bytes);
        return 0;
    }
    unsigned char *row = malloc((size_t)bytes);
    if (row == NULL) return NUMBER_NO_MEMORY;
    size_t len = take_from_engine(0, row, (size_t)bytes);
    unpack(layout, row, len, request->buf);
    free(row);
    return 0;
}

/* What the engine answered when the request ended. */
static void note_end(struct request *request, const struct engine_answer *answer) {
    request->is_ended = true;
    request->number = answer->kind == ENGINE_REFUSED ? answer->number : 0;
    request->end = empty_status();
    if (answer->kind != ENGINE_DONE) return;
    if (answer->outcome == ENGINE_CANCELLED) request->end.reserved_cancelled = 1;
    if (answer->outcome == ENGINE_REPLACED) request->number = answer->number;
    if (answer->outcome == ENGINE_RECEIVED || answer->outcome == ENGINE_FAILED)
        request->end = status_of(request->comm, answer);
    /* A message that is too long has the type of its receive. */
    if (answer->outcome == ENGINE_FAILED && answer->number == NUMBER_TRUNCATED)
        request->end.reserved_bytes = (MPI_Count)(answer->count * request->type->unit);
    /* A message of no elements fits a receive of any type (3.3.1). */
    if (answer->outcome == ENGINE_FAILED && answer->count != 0) request->number = answer->number;
    if (request->number == NUMBER_TYPE) request->elements = answer->count;
    if (answer->outcome != ENGINE_RECEIVED || !open_watch(request->watch)) return;
    request->number = take_data(request, answer->bytes);
    refill_watch(request->watch);
}

void end_request(struct request *request, const struct engine_answer *answer) {
    note_end(request, answer);
    if (request->type != NULL) release_type(request->type);
    request->type = NULL;
}

bool is_at_end(struct request *request) {
    if (request->is_inactive) return true;
    if (!request->is_ended && is_engine_free() && request->kind->go_on != NULL) request->kind->go_on(request);
    bool is_other_at_end = request->other == NULL || is_at_end(request->other);
    if (!request->is_ended || !is_other_at_end) return false;
    if (request->number == 0 && request->other != NULL) request->number = request->other->number;
    return true;
}

uint32_t await_request(struct request *request) {
    const bool is_ended = is_explored && explored_wait(request);
    if (!is_ended && !is_at_end(request)) {
        begin_wait(&(struct wait){.kind = WAIT_REQUEST, .request = request});
        do progress_wait();
        while (!is_at_end(request));
        end_wait();
        progress_out();
    }
    /* By this end the program may know of the end of a receive that it let go. */
    if (has_freed()) settle_freed();
    return request->number;
}

/* Where a function of the program's answers a code (12.2). */
#define CODE_OF_PROGRAM "a function of a generalised request answered %d"

/* A message of another type than its receive: the engine says how many elements it has, and not of which type. */
static void say_other_type(const struct request *request, char *text) {
    const MPI_Status *end = &request->end;
    snprintf(text, LONGEST_CAUSE,
             "a message of %llu element%s of another type from rank %d with tag %d doesn't fit its receive of %s (%d)",
             (unsigned long long)request->elements, request->elements == 1 ? "" : "s", end->MPI_SOURCE, end->MPI_TAG,
             request->element, NUMBER_TYPE);
}

/* Why a request failed, which hangs on what its kind keeps. */
static void say_end(const struct request *request, char *text) {
    const MPI_Status *end = &request->end;
    if (request->kind == &plan_kind) say_plan_end(request->state, text);
    else if (request->number == NUMBER_TYPE && request->elements != 0) say_other_type(request, text);
    else if (request->number == NUMBER_TRUNCATED)
        snprintf(text, LONGEST_CAUSE,
                 "a message of %lld bytes from rank %d with tag %d is longer than its receive of %zu bytes",
                 end->reserved_bytes, end->MPI_SOURCE, end->MPI_TAG, request->room);
    else snprintf(text, LONGEST_CAUSE, "%s (%u)", cause_of(request->number), (unsigned)request->number);
}

int raise_end(const char *call, const struct request *request) {
    char text[LONGEST_CAUSE];
    say_end(request, text);
    return raise_in(request->comm, call, class_of(request->number), "%s", text);
}

int raise_code(const char *call, int code) {
    if (code == MPI_SUCCESS) return MPI_SUCCESS;
    return raise_on(MPI_COMM_WORLD, call, code, CODE_OF_PROGRAM, code);
}

/* ---- requests that go on in each progress ---- */

static struct request *moving;

void keep_moving(struct request *request) {
    struct request **at = &moving;
    while (*at != NULL) at = &(*at)->moving;
    *at = request;
    request->moving = NULL;
}

static void stop_moving(const struct request *request) {
    for (struct request **at = &moving; *at != NULL; at = &(*at)->moving) {
        if (*at != request) continue;
        *at = request->moving;
        return;
    }
}

void move_requests(void) {
    for (struct request **at = &moving; *at != NULL && is_engine_free();) {
        struct request *it = *at;
        if (!it->is_ended) it->kind->go_on(it);
        if (it->is_ended) *at = it->moving, note_news();
        else at = &it->moving;
    }
}

/* Gives back what its kind holds: 0, or an error code. */
static int forget_state(struct request *request) {
    if (request->is_settled || request->kind == NULL || request->kind->forget == NULL) return MPI_SUCCESS;
    return request->kind->forget(request);
}

int tell_end(struct request *request, char *cause) {
    end_watch(request);
    end_watch(request->other);
    int asked = request->kind->query == NULL ? MPI_SUCCESS : request->kind->query(request);
    if (request->number != 0) say_end(request, cause);
    int last = request->is_persistent ? MPI_SUCCESS : forget_state(request);
    request->is_settled = true;
    request->code = request->number != 0 ? class_of(request->number) : last != MPI_SUCCESS ? last : asked;
    if (request->number == 0 && request->code != MPI_SUCCESS)
        snprintf(cause, LONGEST_CAUSE, CODE_OF_PROGRAM, request->code);
    return request->code;
}

/* Gives the memory of a request back, and what it holds, where its operation never ended too: 0, or an error code. */
static int forget_request(struct request *request) {
    int code = forget_state(request);
    drop_watch(request);
    drop_watch(request->other);
    stop_moving(request);
    if (request->type != NULL) release_type(request->type);
    if (request->other != NULL && request->other->type != NULL) release_type(request->other->type);
    if (request->comm != NULL) release_communicator(request->comm);
    free(request->other);
    free(request);
    return code;
}

/* ---- requests that the program let go ---- */

static struct request *freed;

bool let_go(const struct request *request) {
    struct request *own = malloc(sizeof *own);
    if (own == NULL) return false;
    *own = *request;
    if (own->comm != NULL) hold_communicator(own->comm);
    own->next = freed;
    freed = own;
    settle_freed();
    return true;
}

/* Where an operation fails whose request the program has freed, no call can answer it: the error is fatal (3.7.3). */
static void end_by_freed(const struct request *request) {
    char text[LONGEST_CAUSE];
    if (!request->is_freed || request->number == 0) return;
    say_end(request, text);
    process.caller = request->caller;
    raise_fatal("MPI_Request_free", class_of(request->number), "%s", text);
}

void settle_freed(void) {
    for (struct request **at = &freed; *at != NULL;) {
        struct request *it = *at;
        if (!is_at_end(it)) {
            at = &it->next;
            continue;
        }
        *at = it->next;
        end_by_freed(it);
        (void)forget_request(it);
        /* A function of the program's may have been called, and the list be another one. */
        at = &freed;
    }
}

bool has_freed(void) { return freed != NULL; }

struct request *find_freed(bool (*is_it)(const struct request *request, const void *what), const void *what) {
    struct request *it = freed;
    while (it != NULL && !is_it(it, what)) it = it->next;
    return it;
}

int end_freed(struct request *request) {
    struct request **at = &freed;
    while (*at != request) at = &(*at)->next;
    *at = request->next;
    return forget_request(request);
}

/* ---- handles ---- */

uint64_t next_age(void) {
    static uint64_t last;
    return ++last;
}

MPI_Request open_request(void) {
    struct request *own = calloc(1, sizeof *own);
    int64_t handle = own == NULL ? 0 : table_add(&requests, own);
    if (handle == 0) free(own);
    return (MPI_Request)(intptr_t)handle;
}

struct request *request_of(MPI_Request handle) {
    return table_find(&requests, (intptr_t)handle);
}

struct request *active_of(MPI_Request handle) {
    struct request *request = request_of(handle);
    return request == NULL || request->is_inactive ? NULL : request;
}

void close_request(MPI_Request *handle) {
    struct request *request = request_of(*handle);
    if (request->is_persistent) {
        request->is_inactive = true;
        request->is_settled = false;
        return;
    }
    table_remove(&requests, (intptr_t)*handle);
    *handle = MPI_REQUEST_NULL;
    (void)forget_request(request);
}

int request_places(void) { return requests.count; }

uint32_t place_of_request(MPI_Request handle) { return (uint32_t)(intptr_t)handle & PLACE_MASK; }

struct request *request_at(int place) {
    return requests.places[place].object;
}

int check_request(const char *call, const MPI_Request *handle, struct request **found) {
    int class = check_result(MPI_COMM_WORLD, call, handle, "request");
    if (class != MPI_SUCCESS) return class;
    *found = request_of(*handle);
    if (*found != NULL || *handle == MPI_REQUEST_NULL) return MPI_SUCCESS;
    return raise_on(MPI_COMM_WORLD, call, MPI_ERR_REQUEST, "a handle that is no request");
}

/* Frees a request that is at its end. One that is inactive has been told of already. */
static int free_ended(const char *call, struct request *request) {
    int class = request->is_inactive || request->number == 0 ? MPI_SUCCESS : raise_end(call, request);
    int code = forget_request(request);
    return class == MPI_SUCCESS ? raise_code(call, code) : class;
}

int MPI_Request_free(MPI_Request *request) {
    NOTE_CALLER();
    static const char call[] = "MPI_Request_free";
    struct request *found;
    check_running(call);
    int class = check_request(call, request, &found);
    if (class != 0) return class;
    if (found == NULL) return raise_on(MPI_COMM_WORLD, call, MPI_ERR_REQUEST, "the request is MPI_REQUEST_NULL");
    table_remove(&requests, (intptr_t)*request);
    *request = MPI_REQUEST_NULL;
    /* The program may know of its end by other means. */
    drop_watch(found);
    drop_watch(found->other);
    progress();
    if (is_at_end(found)) return free_ended(call, found);
    found->is_freed = true;
    found->caller = process.caller;
    found->next = freed;
    freed = found;
    settle_freed();
    return MPI_SUCCESS;
}

int MPI_Cancel(MPI_Request *request) {
    NOTE_CALLER();
    static const char call[] = "MPI_Cancel";
    struct request *found;
    check_running(call);
    int class = check_request(call, request, &found);
    if (class != 0) return class;
    if (found == NULL) return raise_on(MPI_COMM_WORLD, call, MPI_ERR_REQUEST, "the request is MPI_REQUEST_NULL");
    if (found->is_inactive) return raise_in(found->comm, call, MPI_ERR_REQUEST, "the request is inactive");
    /* Whoever can't be cancelled goes on as if nothing was said (3.8.4). */
    return found->kind->cancel == NULL ? MPI_SUCCESS : found->kind->cancel(call, found);
}

int MPI_Test_cancelled(const MPI_Status *status, int *flag) {
    NOTE_CALLER();
    static const char call[] = "MPI_Test_cancelled";
    check_running(call);
    int class = check_result(MPI_COMM_WORLD, call, status, "status");
    if (class == 0) class = check_result(MPI_COMM_WORLD, call, flag, "flag");
    if (class == 0) *flag = status->reserved_cancelled;
    return class;
}

int MPI_Request_get_status(MPI_Request request, int *flag, MPI_Status *status) {
    NOTE_CALLER();
    static const char call[] = "MPI_Request_get_status";
    struct request *found;
    check_running(call);
    int class = check_request(call, &request, &found);
    if (class == 0) class = check_result(MPI_COMM_WORLD, call, flag, "flag");
    if (class != 0) return class;
    progress();
    found = active_of(request);
    *flag = found == NULL || (is_explored ? explored_test(1, &request) : is_at_end(found));
    if (found == NULL) put_empty(status);
    if (found == NULL || !*flag) return MPI_SUCCESS;
    end_watch(found);
    end_watch(found->other);
    int code = found->kind->query == NULL ? MPI_SUCCESS : found->kind->query(found);
    put_status(status, &found->end);
    return found->number == 0 ? raise_code(call, code) : raise_end(call, found);
}

/* Nothing that it began in the engine waits any longer. */
static void abandon_request(struct request *request) {
    if (!request->is_inactive && !request->is_ended && request->kind->abandon != NULL) request->kind->abandon(request);
}

void abandon_requests(void) {
    free_engine();
    for (int place = 0; place < requests.count; place++)
        if (requests.places[place].object != NULL) abandon_request(requests.places[place].object);
    for (struct request *it = freed; it != NULL; it = it->next) {
        abandon_request(it);
        it->is_freed = it->is_freed && it->is_ended;
    }
}

void close_requests(void) {
    for (int place = 0; place < requests.count; place++)
        if (requests.places[place].object != NULL) (void)forget_request(requests.places[place].object);
    table_free(&requests);
    while (freed != NULL) {
        struct request *it = freed;
        freed = it->next;
        (void)forget_request(it);
    }
}

/* Handles as Fortran has them (17.2.4): the low halves of their numbers, which name what lives now. */
MPI_Fint MPI_Request_c2f(MPI_Request request) { return (MPI_Fint)(intptr_t)request; }
MPI_Request MPI_Request_f2c(MPI_Fint request) {
    NOTE_CALLER();
    int64_t number = table_number(&requests, (uint32_t)request);
    return (MPI_Request)(intptr_t)(number == 0 ? request : number);
}
