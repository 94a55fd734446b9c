/* Copies of communicators that don't wait for the other members (MPI 3.1, 6.4.2): MPI_Comm_idup. The first member draws
 * the number of a new world (worlds.h) and tells it to the others by a plan; each has the copy once it knows it. */
#include "attributes.h"
#include "errors.h"
#include "explored.h"
#include "explored_plans.h"
#include "info.h"
#include "intercommunicators.h"
#include "invitations.h"
#include "lines.h"
#include "plan_runs.h"
#include "topologies.h"
#include "worlds.h"

#include <stdlib.h>

/* A copy that is being made. */
struct later {
    struct request told; /* of the plan that tells the number */
    uint64_t number;
    struct communicator *made;
};

/* ---- the plan ---- */

/* The first of all members sends its block to each other one. */
static bool put_steps(struct plan_call *call) {
    const int others = call->comm->all_size - 1;
    const bool is_first = call->comm->all_rank == 0;
    call->step_count = is_first ? (size_t)others : 1;
    call->steps = calloc(call->step_count + 1, sizeof *call->steps);
    if (call->steps == NULL) return false;
    call->steps[0] = (struct plan_step){.kind = STEP_RECEIVE, .peer = 0, .into = {SLOT_GOT, 0}};
    for (int at = 0; is_first && at < others; at++)
        call->steps[at] = (struct plan_step){.kind = STEP_SEND, .peer = (uint32_t)at + 1, .from = {SLOT_GIVEN, 0}};
    return true;
}

/* The number's place, as a list of its own. */
static bool put_place(struct places *made, uint64_t *number) {
    struct datatype *bytes = datatype_of(MPI_BYTE);
    made->list = calloc(1, sizeof *made->list);
    if (made->list == NULL) return false;
    made->count = 1;
    made->list[0] = (struct place){number, sizeof *number, bytes};
    hold_type(bytes);
    return true;
}

/* Makes the plan: false where there is no memory. */
static bool make_told(struct later *later, const char *call, struct communicator *comm) {
    struct plan_call told = {.name = call, .kind = (enum plan_kind)PLAN_COPY, .comm = comm};
    later->told = (struct request){.kind = &plan_kind, .comm = comm, .caller = process.caller};
    if (put_place(&told.given, &later->number) && put_place(&told.got, &later->number) && put_steps(&told))
        later->told.state = make_plan(&told, &later->told);
    if (later->told.state != NULL) return true;
    free_places(&told.given);
    free_places(&told.got);
    free(told.steps);
    return false;
}

/* ---- the request ---- */

/* The ranks of all members in MPI_COMM_WORLD; NULL: no memory. */
static uint16_t *list_all(const struct communicator *comm) {
    uint16_t *list = malloc((size_t)comm->all_size * sizeof *list);
    for (int member = 0; list != NULL && member < comm->all_size; member++)
        list[member] = (uint16_t)world_rank(comm, member);
    return list;
}

/* Now that the number is known: 0, or why there is no copy. */
static uint32_t open_copy(const struct later *later, const struct communicator *of) {
    uint16_t *list = list_all(of);
    if (list == NULL) return NUMBER_NO_MEMORY;
    uint32_t number = place_in_group(later->made, later->number, list, of->all_size, of);
    return number == 0 && is_inter(of) ? copy_groups(later->made, of) : number;
}

static void go_on(struct request *request) {
    struct later *later = request->state;
    plan_goes_on(later->told.state);
    if (!later->told.is_ended) return;
    request->is_ended = true;
    request->end = empty_status();
    request->number = later->told.number;
    if (request->number == 0) request->number = open_copy(later, request->comm);
    if (request->number != 0) drop_communicator(later->made->handle);
}

static void abandon(struct request *request) { plan_kind.abandon(&((struct later *)request->state)->told); }

static void drop_later(struct later *later) {
    if (later->told.state != NULL) end_plan(later->told.state);
    if (later->made != NULL) release_communicator(later->made);
    free(later);
}

static int forget(struct request *request) {
    if (request->state != NULL) drop_later(request->state);
    request->state = NULL;
    return 0;
}

static void say_wait(struct line *line, struct request *request) {
    plan_kind.say_wait(line, &((struct later *)request->state)->told);
}

static void say_left(struct line *line, struct request *request) {
    plan_kind.say_left(line, &((struct later *)request->state)->told);
}

static const struct request_kind copy_kind = {
    .go_on = go_on, .abandon = abandon, .forget = forget, .say_wait = say_wait, .say_left = say_left};

/* ---- the calls ---- */

/* What a copy has from the beginning (6.4.2): it is a copy of what the communicator is now. */
static int inherit(const struct communicator *of, const char *call, MPI_Comm copy) {
    communicator_of(copy)->topology = hold_topology(of->topology);
    return copy_values(of->handle, call, copy);
}

/* The copy, which nobody is in yet: 0, or the class of an error. */
static int make_copy(const char *call, struct communicator *of, MPI_Comm *newcomm, struct later *later) {
    later->made = new_communicator(newcomm);
    if (later->made == NULL) return raise_number(of->handle, call, NUMBER_NO_MEMORY);
    hold_communicator(later->made);
    int class = inherit(of, call, *newcomm);
    if (class != MPI_SUCCESS) drop_communicator(*newcomm);
    return class;
}

/* Begins what ends once the number is told: 0, or the class of an error. */
static int begin_later(const char *call, struct communicator *of, MPI_Comm *newcomm, struct request *request) {
    struct later *later = calloc(1, sizeof *later);
    if (later == NULL || !make_told(later, call, of)) {
        free(later);
        return raise_number(of->handle, call, NUMBER_NO_MEMORY);
    }
    request->kind = &copy_kind;
    request->state = later;
    int class = make_copy(call, of, newcomm, later);
    if (class != MPI_SUCCESS) return class;
    if (of->all_rank == 0) later->number = draw_number();
    start_plan(later->told.state);
    return MPI_SUCCESS;
}

/* ---- under an explorer ---- */

/* The explorer makes the copy once all members have asked for it; `number` is the one by which it knows the collective.
 */
static void go_on_explored(struct request *request) {
    struct later *later = request->state;
    struct engine_call call = {.kind = ENGINE_LOOK, .request = request->own};
    struct engine_answer answer;
    ask_plans(&call, NULL, 0, &answer);
    if (answer.kind == ENGINE_FACT && answer.fact == 0) return;
    call.kind = ENGINE_TEST;
    ask_plans(&call, NULL, 0, &answer);
    request->is_ended = true;
    request->end = empty_status();
    request->number = answer.kind == ENGINE_LEFT ? 0 : answer.number;
    if (request->number == 0) place_communicator(later->made, answer.communicator, request->comm);
    else drop_communicator(later->made->handle);
    explored_leave((uint32_t)later->number);
    later->number = 0;
}

static void say_nothing(struct line *line, struct request *request) {
    (void)line;
    (void)request;
}

const struct request_kind explored_copy_kind = {
    .go_on = go_on_explored, .forget = forget, .say_wait = say_nothing, .say_left = say_nothing};

uint32_t copy_told(const struct request *request) { return (uint32_t)((const struct later *)request->state)->number; }

static int begin_explored(const char *call, struct communicator *of, MPI_Comm *newcomm, struct request *request) {
    struct later *later = calloc(1, sizeof *later);
    struct engine_answer answer;
    if (later == NULL) return raise_number(of->handle, call, NUMBER_NO_MEMORY);
    request->kind = &explored_copy_kind;
    request->state = later;
    int class = make_copy(call, of, newcomm, later);
    if (class != MPI_SUCCESS) return class;
    later->number = tell_plan(&(struct plan_call){.name = call, .kind = (enum plan_kind)PLAN_COPY, .comm = of});
    ask_plans(&(struct engine_call){.kind = ENGINE_DUP, .communicator = of->place, .order = (int32_t)later->number},
              NULL, 0, &answer);
    request->own = answer.request;
    return MPI_SUCCESS;
}

/* ---- both ---- */

static int begin_copy(const char *call, MPI_Comm comm, MPI_Info info, MPI_Comm *newcomm, MPI_Request *request) {
    struct communicator *own;
    check_running(call);
    int class = check_comm(comm, call, &own);
    if (class == MPI_SUCCESS) class = check_hints(comm, call, info);
    if (class == MPI_SUCCESS) class = check_result(comm, call, newcomm, "newcomm");
    if (class == MPI_SUCCESS) class = check_result(comm, call, request, "request");
    if (class != MPI_SUCCESS) return class;
    MPI_Request handle = open_request();
    if (handle == MPI_REQUEST_NULL) return raise_number(comm, call, NUMBER_NO_MEMORY);
    struct request *made = request_of(handle);
    *made = (struct request){.comm = hold_communicator(own), .caller = process.caller, .age = next_age()};
    class = (is_explored ? begin_explored : begin_later)(call, own, newcomm, made);
    if (class != MPI_SUCCESS) *newcomm = MPI_COMM_NULL;
    if (class != MPI_SUCCESS) close_request(&handle);
    else if (!is_explored) keep_moving(made);
    *request = handle;
    return class;
}

int MPI_Comm_idup(MPI_Comm comm, MPI_Comm *newcomm, MPI_Request *request) {
    NOTE_CALLER();
    return begin_copy("MPI_Comm_idup", comm, MPI_INFO_NULL, newcomm, request);
}

int MPI_Comm_idup_with_info(MPI_Comm comm, MPI_Info info, MPI_Comm *newcomm, MPI_Request *request) {
    NOTE_CALLER();
    return begin_copy("MPI_Comm_idup_with_info", comm, info, newcomm, request);
}
