/* Carries plans out: see plan_runs.h. A step is taken once what was to come into the blocks that it names is there; a
 * receive is begun in its turn, and later steps go on meanwhile. */
#include "plan_runs.h"

#include "agreement.h"
#include "device.h"
#include "errors.h"
#include "explored.h"
#include "explored_plans.h"
#include "intercommunicators.h"
#include "lines.h"
#include "watches.h"
#include "worlds.h"

#include <stdio.h>
#include <stdlib.h>
#include <string.h>

/* The tag of a plan's messages: the number of its communicator, its kind, a bit where it is persistent, and its own
 * number in the communicator. */
enum { COMM_SHIFT = 19, KIND_SHIFT = 15, MOST_OPEN = 1 << 14, PERSISTENT_BIT = MOST_OPEN };
_Static_assert((int)MOST_PERSISTENT <= (int)MOST_OPEN, "a number is below the bit");
enum { LONG_QUIET = 100000000 /* nanoseconds behind which it looks whether another rank entered another collective */ };

/* A send or a receive. */
struct message {
    struct engine_request own;
    bool is_begun, is_ended;
};

/* Why a plan failed: the member whose block it was, the bytes of the block, and those that were wanted. */
struct fault {
    int member;
    size_t came, wanted;
    enum plan_kind kind;
};

struct plan_run {
    struct plan_call call;
    struct request *request;
    uint32_t own;  /* which one of the communicator's plans it is, as its tag tells */
    uint32_t told; /* the number by which an explorer knows it */
    struct plan_step *steps;
    struct message *messages; /* of each step */
    size_t count, next;
    size_t ended; /* so many of the first messages are at their ends, once all steps are taken */
    unsigned char *room;
    size_t room_of_each;   /* bytes of a block of room */
    ptrdiff_t room_before; /* from the first one to the address of its items */
    uint32_t number;       /* 0, or why it failed; and why it can't be carried out at all */
    uint32_t hindrance;
    struct fault fault;
    uint64_t moved; /* when it went on last */
    struct plan_run *earlier, *later;
};

/* Those that aren't at their ends. */
static struct plan_run *on_their_way;

/* ---- blocks ---- */

/* Room is like what one gets, or where that is nothing, like what one hands in: a block that is folded into it, or that
 * goes on. */
static struct place room_like(const struct plan_call *call) {
    if (call->got.count > 0) return call->got.list[0];
    return call->given.count > 0 ? call->given.list[0] : (struct place){0};
}

static struct place kept_place(const struct plan_run *run, uint32_t number) {
    if (run->room == NULL) return (struct place){0};
    struct place like = room_like(&run->call);
    like.at = run->room + number * run->room_of_each + run->room_before;
    return like;
}

static struct place place_of(const struct plan_run *run, struct plan_slot slot) {
    const struct places *places = slot.kind == SLOT_GIVEN ? &run->call.given : &run->call.got;
    if (slot.kind == SLOT_KEPT) return kept_place(run, slot.place);
    return slot.place < places->count ? places->list[slot.place] : (struct place){0};
}

static bool is_same(struct plan_slot a, struct plan_slot b) { return a.kind == b.kind && a.place == b.place; }

/* ---- messages ---- */

static uint32_t tag_of(const struct plan_run *run, enum plan_kind kind) {
    return run->call.comm->number << COMM_SHIFT | (uint32_t)kind << KIND_SHIFT | run->own;
}

/* A call of the engine about a message of this run. An explorer, which has engines for plans alone, too, is told of
 * which communicator and which plan it is. */
static struct engine_call message_of(const struct plan_run *run, enum engine_call_kind kind, uint32_t peer) {
    const struct communicator *comm = run->call.comm;
    return (struct engine_call){.kind = kind,
                                .communicator = is_explored ? comm->place : comm->world->base,
                                .peer = is_explored ? (int32_t)peer : plan_rank(comm, (int)peer),
                                .tag = (int32_t)tag_of(run, run->call.kind),
                                .basic = ENGINE_BYTE,
                                .order = (int32_t)run->told};
}

/* Begins a send or a receive: 0, or a number. */
static uint32_t begin_message(struct message *message, const struct engine_call *call, const void *row, size_t len) {
    struct engine_answer answer;
    ask_plans(call, row, len, &answer);
    if (answer.kind != ENGINE_STARTED) return answer.number;
    message->own = answer.request;
    message->is_begun = true;
    return 0;
}

/* So many steps from this one on are one message: each but the last is joined to the next one. */
static size_t joined_steps(const struct plan_run *run, size_t at) {
    size_t end = at;
    while (run->steps[end].joined != 0) end++;
    return end + 1 - at;
}

/* The step whose message has the block of this one. */
static size_t head_of(const struct plan_run *run, size_t at) {
    while (at > 0 && run->steps[at - 1].joined != 0) at--;
    return at;
}

/* Sends the blocks of several steps as one message. */
static uint32_t send_joined(struct plan_run *run, const struct plan_step *steps, size_t count,
                            struct message *message) {
    struct engine_call send = message_of(run, ENGINE_ISEND, steps->peer);
    size_t len = 0, behind = 0;
    for (size_t at = 0; at < count; at++) len += place_length(place_of(run, steps[at].from));
    if (len > ENGINE_GREATEST_LIMIT) return NUMBER_COUNT;
    if (len == 0) return begin_message(message, &send, NULL, 0);
    unsigned char *row = malloc(len);
    if (row == NULL) return NUMBER_NO_MEMORY;
    for (size_t at = 0; at < count; at++) {
        struct place from = place_of(run, steps[at].from);
        if (place_length(from) == 0) continue;
        pack(&from.type->layout, from.at, from.count, row + behind);
        behind += place_length(from);
        send.basic = from.type->basic;
    }
    uint32_t number = begin_message(message, &send, row, len);
    free(row);
    return number;
}

static uint32_t send_block(struct plan_run *run, const struct plan_step *step, struct message *message) {
    struct place from = place_of(run, step->from);
    struct engine_call send = message_of(run, ENGINE_ISEND, step->peer);
    size_t len = place_length(from);
    if (len > ENGINE_GREATEST_LIMIT) return NUMBER_COUNT;
    if (len == 0) return begin_message(message, &send, NULL, 0);
    void *room;
    const void *row = place_row(from, &room);
    if (row == NULL) return NUMBER_NO_MEMORY;
    send.basic = from.type->basic;
    uint32_t number = begin_message(message, &send, row, len);
    free(room);
    return number;
}

/* Bytes of the blocks that come into several steps' slots. */
static size_t joined_length(const struct plan_run *run, const struct plan_step *steps, size_t count) {
    size_t len = 0;
    for (size_t at = 0; at < count; at++) len += place_length(place_of(run, steps[at].into));
    return len;
}

/* Receives the blocks of several steps as one message. */
static uint32_t receive_joined(struct plan_run *run, const struct plan_step *steps, size_t count,
                               struct message *message) {
    struct engine_call receive = message_of(run, ENGINE_IRECV, steps->peer);
    size_t len = joined_length(run, steps, count);
    for (size_t at = 0; at < count && len > 0; at++) {
        struct place into = place_of(run, steps[at].into);
        if (place_length(into) == 0) continue;
        receive.basic = into.type->basic;
        receive.count = engine_elements(into.type, len);
    }
    return begin_message(message, &receive, NULL, 0);
}

static uint32_t receive_block(struct plan_run *run, const struct plan_step *step, struct message *message) {
    struct place into = place_of(run, step->into);
    struct engine_call receive = message_of(run, ENGINE_IRECV, step->peer);
    size_t len = place_length(into);
    if (len > 0) {
        receive.basic = into.type->basic;
        receive.count = engine_elements(into.type, len);
    }
    return begin_message(message, &receive, NULL, 0);
}

/* Puts the data of a block where they belong. */
static uint32_t take_block(struct place into, size_t bytes) {
    const struct layout *layout = &into.type->layout;
    if (is_row(layout, into.count)) {
        take_from_plans(row_of(layout, into.at), bytes);
        return 0;
    }
    unsigned char *row = malloc(bytes);
    if (row == NULL) return NUMBER_NO_MEMORY;
    take_from_plans(row, bytes);
    unpack(layout, row, bytes, into.at);
    free(row);
    return 0;
}

/* Puts the data of several blocks where they belong. */
static uint32_t take_joined(struct plan_run *run, const struct plan_step *steps, size_t count, size_t bytes) {
    unsigned char *row = malloc(bytes);
    size_t behind = 0;
    if (row == NULL) return NUMBER_NO_MEMORY;
    take_from_plans(row, bytes);
    for (size_t at = 0; at < count; at++) {
        struct place into = place_of(run, steps[at].into);
        size_t len = place_length(into);
        if (len > 0) unpack(&into.type->layout, row + behind, len, into.at);
        behind += len;
    }
    free(row);
    return 0;
}

/* Why a receive that ended so is no message of the plan, or 0: its data are taken then. */
static uint32_t end_receive(struct plan_run *run, size_t at, const struct engine_answer *answer, struct fault *fault) {
    const struct plan_step *step = &run->steps[at];
    const size_t count = joined_steps(run, at);
    fault->wanted = joined_length(run, step, count);
    fault->came = answer->outcome == ENGINE_RECEIVED ? (size_t)answer->bytes : 0;
    bool is_empty = answer->outcome != ENGINE_REPLACED && answer->count == 0;
    if (is_empty) return fault->wanted == 0 ? 0 : NUMBER_COUNT;
    /* Where nothing is wanted, any data are too many. */
    if (fault->wanted == 0 && answer->number == NUMBER_TYPE) return NUMBER_TRUNCATED;
    if (answer->outcome != ENGINE_RECEIVED) return answer->number;
    if (fault->came != fault->wanted) return NUMBER_COUNT;
    return count > 1 ? take_joined(run, step, count, fault->came) : take_block(place_of(run, step->into), fault->came);
}

/* Notes the end of a send or a receive. */
static void note_end(struct plan_run *run, size_t at, const struct engine_answer *answer) {
    const struct plan_step *step = &run->steps[at];
    struct fault fault = {.member = rank_of_member(run->call.comm, (int)step->peer)};
    uint32_t number = 0;
    run->messages[at].is_ended = true;
    if (answer->kind == ENGINE_REFUSED || answer->outcome == ENGINE_REPLACED) number = answer->number;
    else if (step->kind == STEP_RECEIVE) number = end_receive(run, at, answer, &fault);
    if (number == 0 || run->number != 0) return;
    run->number = number;
    run->fault = fault;
}

/* Whether a send or a receive is at its end; where it is, that is noted. */
static bool has_passed(struct plan_run *run, size_t step) {
    const size_t at = head_of(run, step);
    struct message *message = &run->messages[at];
    if (!message->is_begun || message->is_ended) return true;
    struct engine_call call = {.kind = ENGINE_LOOK, .request = message->own};
    struct engine_answer answer;
    ask_plans(&call, NULL, 0, &answer);
    if (answer.kind == ENGINE_FACT && answer.fact == 0) return false;
    call.kind = ENGINE_TEST;
    ask_plans(&call, NULL, 0, &answer);
    if (answer.kind == ENGINE_PENDING) return false;
    note_end(run, at, &answer);
    return true;
}

/* ---- steps ---- */

/* Whether what was to come into a block is there. */
static bool is_there(struct plan_run *run, struct plan_slot slot) {
    if (slot.kind == SLOT_NONE) return true;
    for (size_t at = run->next; at-- > 0;)
        if (run->steps[at].kind == STEP_RECEIVE && is_same(run->steps[at].into, slot) && !has_passed(run, at))
            return false;
    return true;
}

/* The third block becomes what is made of the first two: it is the second one, or becomes it first. */
static uint32_t fold_blocks(struct plan_run *run, const struct plan_step *step) {
    struct place into = place_of(run, step->into);
    uint32_t number = is_same(step->high, step->into) ? 0 : copy_place(place_of(run, step->high), into);
    if (number != 0 || place_length(into) == 0) return number;
    return fold_items(&run->call.folding, place_of(run, step->from).at, into.at, into.count, into.type);
}

/* Whether what was to come into the blocks of all these steps is there. */
static bool are_there(struct plan_run *run, const struct plan_step *steps, size_t count) {
    for (size_t at = 0; at < count; at++)
        if (!is_there(run, steps[at].from) || !is_there(run, steps[at].high) || !is_there(run, steps[at].into))
            return false;
    return true;
}

static uint32_t send_steps(struct plan_run *run, const struct plan_step *step, size_t count) {
    struct message *message = &run->messages[run->next];
    return count > 1 ? send_joined(run, step, count, message) : send_block(run, step, message);
}

static uint32_t receive_steps(struct plan_run *run, const struct plan_step *step, size_t count) {
    struct message *message = &run->messages[run->next];
    return count > 1 ? receive_joined(run, step, count, message) : receive_block(run, step, message);
}

/* Takes the next step, with those that are joined to it: false where a block isn't there yet. */
static bool take_step(struct plan_run *run) {
    const struct plan_step *step = &run->steps[run->next];
    const size_t count = joined_steps(run, run->next);
    if (!are_there(run, step, count)) return false;
    if (run->number != 0) return true;
    switch (step->kind) {
    case STEP_COPY:
        run->number = copy_place(place_of(run, step->from), place_of(run, step->into));
        break;
    case STEP_SEND:
        run->number = send_steps(run, step, count);
        break;
    case STEP_RECEIVE:
        run->number = receive_steps(run, step, count);
        break;
    case STEP_FOLD:
        run->number = fold_blocks(run, step);
        break;
    }
    run->next += count;
    return true;
}

/* Whether all sends and receives are at their ends. */
static bool have_all_passed(struct plan_run *run) {
    while (run->ended < run->next && has_passed(run, run->ended)) run->ended++;
    return run->ended == run->next;
}

/* ---- another collective ---- */

/* Whether a message of another collective of the same number came from a member that this one waits for: then the two
 * entered different ones, since members enter the collectives of a communicator in one order (5.12). */
static bool find_other_kind(struct plan_run *run, int member) {
    for (uint32_t kind = PLAN_ALLTOALL; kind <= PLAN_COPY; kind++) {
        if (kind == (uint32_t)run->call.kind) continue;
        struct engine_call probe = message_of(run, ENGINE_IPROBE, (uint32_t)member);
        struct engine_answer answer;
        probe.tag = (int32_t)tag_of(run, (enum plan_kind)kind);
        ask_plans(&probe, NULL, 0, &answer);
        if (answer.kind != ENGINE_PROBED) continue;
        run->number = NUMBER_MISMATCH;
        run->fault = (struct fault){.member = rank_of_member(run->call.comm, member), .kind = (enum plan_kind)kind};
        return true;
    }
    return false;
}

/* The first member from whom a block is to come that was asked for, or -1. */
static int awaited_member(const struct plan_run *run) {
    for (size_t at = run->ended; at < run->next; at++) {
        const struct message *message = &run->messages[at];
        if (run->steps[at].kind == STEP_RECEIVE && message->is_begun && !message->is_ended)
            return (int)run->steps[at].peer;
    }
    return -1;
}

/* Where a plan has stood still for a while, it looks for that. */
static bool is_at_odds(struct plan_run *run) {
    uint64_t now = device_nanoseconds();
    int member = awaited_member(run);
    if (member < 0 || is_explored || now - run->moved < LONG_QUIET) return false;
    run->moved = now;
    return find_other_kind(run, member);
}

/* ---- the run ---- */

/* Puts it in front of those that are on their way. */
static void put_on_way(struct plan_run *run) {
    run->earlier = NULL;
    run->later = on_their_way;
    if (run->later != NULL) run->later->earlier = run;
    on_their_way = run;
}

static void take_off_way(struct plan_run *run) {
    if (run->later != NULL) run->later->earlier = run->earlier;
    if (run->earlier != NULL) run->earlier->later = run->later;
    else if (on_their_way == run) on_their_way = run->later;
    run->earlier = run->later = NULL;
}

/* Whether it is at its end now. */
static bool is_run_at_end(struct plan_run *run) {
    size_t before = run->next;
    bool is_blocked = false;
    while (run->number == 0 && run->next < run->count && !is_blocked) is_blocked = !take_step(run);
    if (run->next != before) {
        run->moved = device_nanoseconds();
        progress_out();
    }
    if (run->number != 0 || (!is_blocked && have_all_passed(run))) return true;
    return is_at_odds(run);
}

void plan_goes_on(struct plan_run *run) {
    struct request *request = run->request;
    if (request->is_ended || !is_run_at_end(run)) return;
    request->is_ended = true;
    request->number = run->number;
    request->end = empty_status();
    take_off_way(run);
}

/* A function of the program may be called here, which asks about its type at most: it may not communicate (5.9.5). */
void plans_go_on(void) {
    static bool is_going;
    if (is_going) return;
    is_going = true;
    for (struct plan_run *run = on_their_way, *next; run != NULL; run = next) {
        next = run->later;
        plan_goes_on(run);
    }
    is_going = false;
}

void say_plan_end(const struct plan_run *run, char *text) {
    note_told(run->call.comm->place);
    static const char *const kinds[] = {
        [PLAN_ALLTOALL] = "an alltoall",
        [PLAN_ALLGATHER] = "an allgather",
        [PLAN_REDUCE_SCATTER] = "a reduce_scatter",
        [PLAN_SCAN] = "a scan",
        [PLAN_EXSCAN] = "an exscan",
        [PLAN_GATHER] = "a gather",
        [PLAN_SCATTER] = "a scatter",
        [PLAN_BROADCAST] = "a broadcast",
        [PLAN_REDUCE] = "a reduction",
        [PLAN_ALLREDUCE] = "an allreduce",
        [PLAN_BARRIER] = "a barrier",
        [PLAN_NEIGHBOURS] = "an exchange with neighbours",
        [PLAN_COPY] = "a copy",
    };
    const struct fault *fault = &run->fault;
    if (run->number == NUMBER_MISMATCH)
        snprintf(text, LONGEST_CAUSE, "rank %d entered %s in its place (%d)", fault->member, kinds[fault->kind],
                 NUMBER_MISMATCH);
    else if (run->number == NUMBER_COUNT && fault->wanted != fault->came)
        snprintf(text, LONGEST_CAUSE, "the block of rank %d has %zu bytes, and %zu are wanted (%d)", fault->member,
                 fault->came, fault->wanted, NUMBER_COUNT);
    else if (run->number == NUMBER_TRUNCATED)
        snprintf(text, LONGEST_CAUSE, "the block of rank %d has more than the %zu bytes that are wanted (%d)",
                 fault->member, fault->wanted, NUMBER_TRUNCATED);
    else if (run->number == NUMBER_TYPE)
        snprintf(text, LONGEST_CAUSE, "the block of rank %d is of another type (%d)", fault->member, NUMBER_TYPE);
    else snprintf(text, LONGEST_CAUSE, "%s (%u)", cause_of(run->number), (unsigned)run->number);
}

/* ---- beginning and end ---- */

/* Takes the steps over that the call has. */
static uint32_t take_steps(struct plan_run *run) {
    run->steps = run->call.steps;
    run->count = run->call.step_count;
    run->call.steps = NULL;
    run->messages = calloc(run->count + 1, sizeof *run->messages);
    return run->messages == NULL ? NUMBER_NO_MEMORY : 0;
}

/* Asks for the steps. */
static uint32_t find_steps(struct plan_run *run) {
    const struct plan_call *call = &run->call;
    if (call->steps != NULL) return take_steps(run);
    const struct plan_asked asked = {.kind = (uint32_t)call->kind,
                                     .size = (uint32_t)call->comm->size,
                                     .rank = (uint32_t)call->comm->rank,
                                     .root = (uint32_t)call->root,
                                     .bytes = call->are_alike ? place_length(call->got.list[0]) : UINT64_MAX,
                                     .regroups = folds_regroup(&call->folding, room_like(call).type)};
    struct plan_step none;
    uint64_t count = 0;
    uint32_t number = kombazily_plan(&asked, &none, 0, &count);
    if (number != 0) return number;
    run->steps = calloc(count + 1, sizeof *run->steps);
    run->messages = calloc(count + 1, sizeof *run->messages);
    if (run->steps == NULL || run->messages == NULL) return NUMBER_NO_MEMORY;
    run->count = count;
    return kombazily_plan(&asked, run->steps, count, &count);
}

static uint32_t most_kept(uint32_t most, struct plan_slot slot) {
    return slot.kind == SLOT_KEPT && slot.place >= most ? slot.place + 1 : most;
}

/* Makes the room that the steps name. */
static uint32_t find_room(struct plan_run *run) {
    uint32_t kept = 0;
    for (size_t at = 0; at < run->count; at++)
        kept = most_kept(most_kept(kept, run->steps[at].from), run->steps[at].into);
    const struct place like = room_like(&run->call);
    if (kept == 0 || place_length(like) == 0) return 0;
    const struct layout *layout = &like.type->layout;
    /* An extent may be negative. */
    ptrdiff_t last = (ptrdiff_t)(like.count - 1) * layout->numbers.extent;
    ptrdiff_t from = layout->numbers.true_lower + (last < 0 ? last : 0),
              to = layout->numbers.true_upper + (last > 0 ? last : 0);
    run->room_of_each = ((size_t)(to - from) + 15) / 16 * 16;
    run->room_before = -from;
    run->room = calloc(kept, run->room_of_each);
    return run->room == NULL ? NUMBER_NO_MEMORY : 0;
}

/* Whether the plan that had its number before is on its way. */
static bool is_number_taken(const struct plan_run *own) {
    for (const struct plan_run *run = on_their_way; run != NULL; run = run->later)
        if (run->call.comm == own->call.comm && run->own == own->own) return true;
    return false;
}

/* What its tag tells of it: members begin those that aren't persistent in one order (5.12), and make the others so. */
static uint32_t next_own(const struct plan_run *run) {
    const uint32_t persistent = run->call.persistent;
    return persistent == 0 ? run->call.comm->plans++ % MOST_OPEN : PERSISTENT_BIT | (persistent - 1);
}

/* Notes for agreement.h what is entered, or begun again. */
static void note_start(const struct plan_call *call) {
    if (call->persistent == 0) note_plan(call->kind, call->root, call->comm);
    else note_again(call->persistent, call->comm);
}

struct plan_run *make_plan(const struct plan_call *asked, struct request *request) {
    struct plan_run *run = calloc(1, sizeof *run);
    if (run == NULL) return NULL;
    run->call = *asked;
    run->request = request;
    hold_communicator(asked->comm);
    if (asked->folding.operation != NULL) asked->folding.operation->uses++;
    run->hindrance = find_steps(run);
    if (run->hindrance == 0) run->hindrance = find_room(run);
    if (asked->persistent != 0) note_plan(asked->kind, asked->root, asked->comm);
    return run;
}

static void leave_explorer(struct plan_run *run) {
    if (is_explored) explored_leave(run->told);
    run->told = 0;
}

uint32_t plan_told(const struct plan_run *run) { return run->told; }

/* What was begun and isn't at its end, since the plan failed: a receive is cancelled; a send goes on. */
static void give_up_messages(struct plan_run *run) {
    /* Behind MPI_Finalize the explorer isn't there. */
    if (is_explored && explored_socket() < 0) return;
    for (size_t at = 0; at < run->next; at++) {
        struct message *message = &run->messages[at];
        if (!message->is_begun || message->is_ended) continue;
        struct engine_call call = {.kind = ENGINE_CANCEL, .request = message->own};
        struct engine_answer answer;
        if (run->steps[at].kind == STEP_RECEIVE) ask_plans(&call, NULL, 0, &answer);
        call.kind = ENGINE_TEST;
        ask_plans(&call, NULL, 0, &answer);
    }
}

void start_plan(struct plan_run *run) {
    if (run->number != 0) give_up_messages(run);
    run->own = next_own(run);
    run->next = run->ended = 0;
    run->number = run->hindrance;
    run->moved = device_nanoseconds();
    if (run->messages != NULL) memset(run->messages, 0, run->count * sizeof *run->messages);
    note_start(&run->call);
    leave_explorer(run);
    if (is_explored) run->told = tell_plan(&run->call);
    if (is_number_taken(run)) run->number = NUMBER_LIMIT;
    put_on_way(run);
    plan_goes_on(run);
}

void end_plan(struct plan_run *run) {
    take_off_way(run);
    give_up_messages(run);
    leave_explorer(run);
    if (run->call.persistent != 0) forget_persistent(run->call.comm, run->call.persistent - 1);
    release_operation(run->call.folding.operation);
    free_places(&run->call.given);
    free_places(&run->call.got);
    release_communicator(run->call.comm);
    free(run->call.spare);
    free(run->room);
    free(run->steps);
    free(run->messages);
    free(run);
}

/* ---- as a request ---- */

static void go_on(struct request *request) { plan_goes_on(request->state); }

/* Of a persistent one (MPI 4.0, 6.13). */
static int start(const char *call, struct request *request) {
    struct plan_run *run = request->state;
    (void)call;
    request->is_inactive = request->is_ended = false;
    request->number = 0;
    request->age = next_age();
    request->caller = process.caller;
    watch_plan(request, &run->call);
    start_plan(run);
    return MPI_SUCCESS;
}

/* A collective can't be cancelled (5.12). */
static int refuse_cancel(const char *call, struct request *request) {
    return raise_in(request->comm, call, MPI_ERR_REQUEST, "a collective can't be cancelled");
}

static void abandon(struct request *request) { give_up_messages(request->state); }

static int forget(struct request *request) {
    if (request->state != NULL) end_plan(request->state);
    request->state = NULL;
    return 0;
}

static void say_wait(struct line *line, struct request *request) {
    const struct plan_run *run = request->state;
    int member = awaited_member(run);
    if (member < 0) add_text(line, "the other ranks of ");
    else {
        add_member(line, request->comm, member);
        add_text(line, " to enter it in ");
    }
    add_comm(line, request->comm);
}

static void say_left(struct line *line, struct request *request) {
    const struct plan_run *run = request->state;
    add_text(line, "collective: %s in ", run->call.name);
    add_comm(line, request->comm);
}

const struct request_kind plan_kind = {.go_on = go_on,
                                       .start = start,
                                       .cancel = refuse_cancel,
                                       .abandon = abandon,
                                       .forget = forget,
                                       .say_wait = say_wait,
                                       .say_left = say_left};
