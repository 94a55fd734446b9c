/* Progress: datagrams are carried between the device and the engines, and the engines are told the time. */
#include "device.h"
#include "errors.h"
#include "explored.h"
#include "internal.h"
#include "plan_runs.h"
#include "silence.h"
#include "standstill.h"
#include "wait_lines.h"
#include "worlds.h"

#include <stdio.h>
#include <stdlib.h>
#include <string.h>

enum {
    MILLISECOND = 1000000,       /* the following are in nanoseconds but where it is said */
    LONGEST_SPIN = 100000,       /* so long a rank that waits asks again and again before it sleeps */
    SHORTEST_SPIN = 12000,       /* so long at least, where nobody else wants its processor */
    LONG_WAIT = 20000,           /* behind a wait of so long it looks whether others had the processor */
    MODEST_WAITS = 100,          /* for so many waits it then asks but once */
    CROWDED_SPIN = 12000,        /* the longest where there are more ranks than processors */
    SHORT_SLEEP = 5,             /* milliseconds, where something is to go again if it isn't acknowledged */
    LONG_SLEEP = 100,            /* the same where nothing is: a datagram that comes wakes a rank in any case */
    LONGEST_PUT_OFF = 100000000, /* so long it takes in what has come before anything goes again */
    LAST_WORDS = 2000000000,     /* so long a rank that ends waits for the last acknowledgements at most */
    COPIES_OF_LAST = 3 /* so often a rank that ends says what it says: it may be gone before it is asked again */
};

/* The time that was read last, and that by which engines were told that frames may go again, in nanoseconds. */
static uint64_t told, asked;
/* Since when what came puts that off; 0: it doesn't. */
static uint64_t put_off;
/* When an engine took a datagram last, and when the wait began that lasts. */
static uint64_t heard, wait_begun;
/* Which ranks were sent something, and which have ever been heard. */
static struct silence known;
/* So long it asks again and again before it sleeps. */
static uint64_t spin_time, longest_spin;
/* So often all is sent that goes out. */
static int copies = 1;

/* What is known of round trips, which all engines learn: of many on one machine at once, else of each process, once
 * there are several worlds. */
static struct engine_lateness machine;
static struct engine_estimate *processes;

void progress_open(void) {
    longest_spin = process.size > device_processors() ? CROWDED_SPIN : LONGEST_SPIN;
    spin_time = longest_spin;
    heard = device_nanoseconds();
    told = asked = put_off = 0;
    kombazily_begin_lateness((uint32_t)process.size, (uint32_t)device_processors(), heard, &machine);
}

/* An engine learns what others did of its ranks. */
static void learn_of_all(struct carried *own) {
    if (share_lateness()) kombazily_learn_all(&own->rank, &machine.estimate);
    for (int rank = 0; processes != NULL && rank < own->world->size; rank++)
        kombazily_learn(&own->rank, (uint16_t)rank, &processes[first_rank(own->world, rank)]);
}

/* Tells an engine the time, and whether frames may go again by it. For want of memory nothing goes out again now: it
 * does the next time. */
static void tick(struct carried *own, bool may_repeat) {
    (void)kombazily_tick(&own->rank, told, may_repeat);
    own->told = told;
    put_into(OUTGOING, own);
}

/* Engines that keep an acknowledgement back are told the time once it is to go: whether some were. */
static bool tell_keeping(void) {
    struct carried *it = first_of(KEEPING);
    const bool is_late = it != NULL && it->kept_until <= told;
    for (; it != NULL && it->kept_until <= told; it = next_in(KEEPING, it)) tick(it, false);
    return is_late;
}

/* Frames go again that weren't acknowledged in time: each millisecond once, in engines in turn. Where something came
 * just now more may have come, acknowledgements among it, and that is taken in first; it puts them off for no longer
 * than a while. Whether some engine was told so. */
static bool ask_again(bool has_come) {
    const uint64_t passed = told / MILLISECOND - asked / MILLISECOND;
    if (passed == 0) return false;
    if (put_off == 0) put_off = told;
    if (has_come && told - put_off < LONGEST_PUT_OFF) return false;
    put_off = 0;
    uint64_t count = kombazily_told_at_once(count_of(UNANSWERED), passed);
    asked = told;
    const bool is_some = count > 0;
    for (; count > 0; count--) {
        learn_of_all(first_of(UNANSWERED));
        tick(first_of(UNANSWERED), true);
        turn_list(UNANSWERED);
    }
    return is_some;
}

/* The engines are told the time that is due for it: whether some were. */
static bool tell_time(bool has_come) {
    told = device_nanoseconds();
    const bool is_late = tell_keeping();
    return ask_again(has_come) || is_late;
}

/* One is told the time before whatever may make it send, and before datagrams that came: by that it measures round
 * trips. Nothing goes again by that. From now on something may go on in it. */
static void tell_before(struct carried *own) {
    told = device_nanoseconds();
    (void)tell_keeping();
    if (own->told / MILLISECOND != told / MILLISECOND) tick(own, false);
    put_into(OUTGOING, own);
}

void share_estimates(void) {
    if (process.is_apart && processes == NULL) processes = calloc((size_t)process.size, sizeof *processes);
}

void drop_carried(struct carried *own) {
    for (enum carried_list list = 0; list < CARRIED_LISTS; list++) take_out_of(list, own);
}

/* Where something was to go out that isn't acknowledged, or may be. */
static bool are_idle(void) {
    static const enum carried_list both[] = {OUTGOING, UNANSWERED};
    for (size_t at = 0; at < sizeof both / sizeof *both; at++)
        for (struct carried *it = first_of(both[at]); it != NULL; it = next_in(both[at], it))
            if (!kombazily_is_idle(&it->rank)) return false;
    return true;
}

/* Without its socket a rank can't go on. */
static _Noreturn void refuse_device(int error) {
    fflush(stdout);
    fprintf(stderr, "rank %d: %s: its socket sends nothing: %s\n", process.rank, process.call, strerror(error));
    end_job(STATUS_SOCKET);
}

/* From now on it keeps an acknowledgement back until this time, or, where that is 0, none. */
static void note_kept(struct carried *own, uint64_t until) {
    if (own->kept_until == until) return;
    take_out_of(KEEPING, own);
    own->kept_until = until;
    if (until != 0) put_into(KEEPING, own);
}

/* Another program may have the port of a rank until that one has begun, and so would learn the job's number. */
static void send_to(int rank, const struct engine_outgoing *out, size_t len) {
    if (!is_there(rank)) return;
    note_sent(&known, rank, told);
    device_put((uint16_t)rank, out->count, out->each, len);
}

/* Sends what is to go out of an engine, what it keeps back too, if it is said so; and notes what goes on in it. */
static void send_from(struct carried *own, bool kept_too) {
    struct engine_outgoing out = {.kept_until = own->kept_until};
    size_t len;
    do {
        size_t room;
        unsigned char *into = device_room(&room);
        len = kombazily_next(&own->rank, device_most(), kept_too, &out, into, room);
        if (len != 0) send_to(first_rank(own->world, out.target), &out, len);
    } while (len != 0);
    take_out_of(OUTGOING, own);
    note_kept(own, out.kept_until);
    if (kombazily_is_idle(&own->rank)) take_out_of(UNANSWERED, own);
    else put_into(UNANSWERED, own);
}

/* Sends what is to go out of all; what is kept back too, if it is told so. */
static void send_out(bool kept_too) {
    struct carried *it;
    if (!device_is_open()) return;
    while ((it = first_of(OUTGOING)) != NULL) send_from(it, kept_too);
    while (kept_too && (it = first_of(KEEPING)) != NULL) send_from(it, true);
    device_flush(copies);
    if (device_error() != 0) refuse_device(device_error());
}

/* Hands an acknowledgement of a rank to an engine: 0, or why it is refused. What it tells of round trips all engines
 * learn. */
static uint32_t hand_answer(struct carried *own, int from, const unsigned char *bytes, size_t len) {
    struct engine_estimate *known = processes == NULL ? NULL : &processes[first_rank(own->world, from)];
    struct engine_estimate learned = known != NULL ? *known : machine.estimate;
    if (known == NULL && !share_lateness()) return kombazily_datagram(&own->rank, bytes, len);
    kombazily_learn(&own->rank, (uint16_t)from, &learned);
    const uint32_t number = kombazily_datagram(&own->rank, bytes, len);
    kombazily_learned(&own->rank, (uint16_t)from, &learned);
    if (known != NULL) *known = learned;
    else kombazily_note_lateness(&machine, &learned, told);
    return number;
}

/* The same of any datagram. */
static uint32_t hand_to(struct carried *own, int from, const unsigned char *bytes, size_t len) {
    return is_acknowledgement(bytes, len) ? hand_answer(own, from, bytes, len)
                                          : kombazily_datagram(&own->rank, bytes, len);
}

/* Hands a datagram to the engine that it is for, unless it comes from elsewhere than the rank that it names; the engine
 * refuses what comes again. One for an engine that may come soon is kept, where it comes from a rank of the job.
 * Whether it came from such a rank. */
static bool hear_one(uint32_t address, uint16_t port, const unsigned char *bytes, size_t len) {
    uint64_t job;
    int kind;
    if (!read_job(bytes, len, &job)) return false;
    struct world *world = world_of_job(job, &kind);
    if (world == NULL && may_be_ours(job) && device_knows(address, port)) keep_datagram(address, port, bytes, len);
    const int from = world == NULL ? 0 : first_rank(world, sender_of(bytes, len));
    if (world == NULL || !device_is_at(from, address, port)) return false;
    note_came(&known, from);
    if (!need_engine(world, kind)) return false;
    tell_before(&world->engines[kind]);
    if (hand_to(&world->engines[kind], from, bytes, len) == 0) heard = told, note_news();
    return true;
}

/* Takes in some datagrams. */
static bool hear(uint32_t address, uint16_t port, const unsigned char *bytes, size_t len, size_t each) {
    bool is_ours = false;
    for (size_t at = 0; at < len; at += each)
        is_ours |= hear_one(address, port, bytes + at, len - at < each ? len - at : each);
    if (is_ours) send_out(false);
    return is_ours;
}

static void take_one(uint32_t address, uint16_t port, const unsigned char *bytes, size_t len) {
    (void)hear_one(address, port, bytes, len);
}

void take_kept(const struct world *world) {
    for (int kind = 0; kind < ENGINES; kind++) hand_kept(job_of(world, kind), take_one);
}

/* Whether something came in, which was handed to the engine. */
static bool take_in(void) { return device_is_open() && device_hear(hear); }

/* Takes in what has come, tells the time, and sends what is to go out by it: whether something came. */
static bool go_round(void) {
    const bool has_come = take_in();
    if (tell_time(has_come)) send_out(false);
    return has_come;
}

void progress_out(void) {
    send_out(false);
    /* A program may send for long, and never wait. */
    if (!is_explored && told / MILLISECOND != asked / MILLISECOND) (void)go_round();
}

void progress(void) {
    if (!is_explored) (void)tell_time(take_in());
    plans_go_on();
    move_requests();
    worlds_go_on();
    if (!is_explored) send_out(false);
}

/* Asks until some time whether something came: whether it did. */
static bool spin(uint64_t until) {
    do {
        if (go_round()) return true;
    } while (told < until);
    return false;
}

/* After a wait that asking would have covered it asks for longer the next time, after a longer one for shorter. Where
 * others were given the processor meanwhile, who may be those that it waits for, it asks but once for a while: then
 * they get it at once, and so does this rank, which is woken, when something comes. */
static void learn(uint64_t waited) {
    static int modest;
    if (waited > LONG_WAIT && device_was_preempted()) modest = MODEST_WAITS;
    uint64_t next = waited < longest_spin ? 2 * spin_time : spin_time / 2;
    spin_time = next < SHORTEST_SPIN ? SHORTEST_SPIN : next > longest_spin ? longest_spin : next;
    if (modest > 0) modest--, spin_time = 0;
}

/* Sleeps until a datagram comes, or something may be due. */
static void sleep_on(void) {
    device_sleep(are_idle() ? LONG_SLEEP : SHORT_SLEEP);
    (void)go_round();
}

int never_heard(void) {
    if (!device_is_open()) return -1;
    return first_silent(&known, device_ranks(), process.rank, wait_begun, device_nanoseconds());
}

/* Tells once of a rank that was never heard. */
static void tell_silence(void) {
    static bool is_told;
    const int rank = is_told ? -1 : never_heard();
    if (rank < 0) return;
    is_told = true;
    tell_never_heard(rank);
}

/* A rank that was told a patience gives up where the engine took no datagram for so long. */
static void lose_patience(void) {
    uint64_t quiet = (device_nanoseconds() - heard) / MILLISECOND;
    tell_silence();
    if (process.patience == 0) {
        watch_standstill(quiet, are_idle());
        return;
    }
    if (!is_standstill(quiet) || quiet < (uint64_t)process.patience) return;
    give_up();
}

/* Waits a while for a datagram. */
static void wait_a_while(void) {
    uint64_t begun = device_nanoseconds();
    if (!spin(begun + spin_time)) {
        send_out(true);
        sleep_on();
    }
    heed_signals();
    learn(device_nanoseconds() - begun);
}

/* The same where other threads may speak MPI meanwhile. */
static void wait_with_others(void) {
    if (!is_poller()) {
        await_news();
        return;
    }
    uint64_t begun = device_nanoseconds();
    if (go_round()) {
        let_others_in();
        return;
    }
    send_out(true);
    await_datagram((long)spin_time, are_idle() ? LONG_SLEEP : SHORT_SLEEP);
    (void)go_round();
    heed_signals();
    lose_patience();
    learn(device_nanoseconds() - begun);
}

void progress_wait(void) {
    if (is_explored) explored_pause();
    else if (process.is_threaded) wait_with_others();
    else wait_a_while(), lose_patience();
    plans_go_on();
    move_requests();
    worlds_go_on();
}

void progress_begin_wait(void) {
    /* The program may have computed for long: that isn't waiting. */
    heard = device_nanoseconds();
    wait_begun = heard;
}

void progress_until_idle(void) {
    progress_begin_wait();
    while (!are_idle()) progress_wait();
}

void progress_say_often(void) {
    copies = COPIES_OF_LAST;
    stop_worlds();
}

void progress_last_words(void) {
    uint64_t until = device_nanoseconds() + LAST_WORDS;
    /* Who has left can't acknowledge any more: that is no failure, whatever the patience is. */
    while (!are_idle() && device_nanoseconds() < until) wait_a_while();
    send_out(true);
}

/* Whether the engine may send something at such a call. */
static bool may_send(enum engine_call_kind kind) {
    switch (kind) {
    case ENGINE_TEST:
    case ENGINE_LOOK:
    case ENGINE_CANCEL:
    case ENGINE_IPROBE:
    case ENGINE_IMPROBE:
    case ENGINE_FINISH:
    case ENGINE_RANK:
    case ENGINE_SIZE:
    case ENGINE_MEMBERS:
    case ENGINE_COMPARE:
        return false;
    default:
        return true;
    }
}

/* Whether a call names a request, and so no communicator. */
static bool names_request(enum engine_call_kind kind) {
    return kind == ENGINE_TEST || kind == ENGINE_LOOK || kind == ENGINE_CANCEL || kind == ENGINE_MRECV;
}

/* The engine that answered last of each kind, and that in which a collective or a receive waits. */
static struct carried *answered[ENGINES];
static struct world *blocked;

/* The world that a call is for. */
static struct world *world_of_call(const struct engine_call *call) {
    if (call->kind == ENGINE_FINISH) return blocked;
    return names_request(call->kind) ? world_of_key(call->request.key) : world_of_place(call->communicator);
}

/* Asks an engine of a world that isn't the first one, and knows nothing of others: what names its communicators and
 * requests is turned. */
static void ask_turned(const struct world *world, struct carried *own, struct engine_call call, const void *data,
                       size_t len, struct engine_answer *answer) {
    const uint64_t key_base = (uint64_t)(world->base >> PLACE_BITS) << KEY_BITS;
    call.communicator -= names_request(call.kind) ? 0 : world->base;
    call.other -= call.kind == ENGINE_COMPARE ? world->base : 0;
    call.request.key -= names_request(call.kind) && call.request.key != UINT64_MAX ? key_base : 0;
    kombazily_call(&own->rank, &call, data, len, answer);
    if (answer->request.key != UINT64_MAX) answer->request.key += key_base;
    if (answer->communicator != ENGINE_NO_COMMUNICATOR) answer->communicator += world->base;
}

/* Asks the engine of a kind that the call is for. */
static void ask(int kind, const struct engine_call *call, const void *data, size_t len, struct engine_answer *answer) {
    static const unsigned char nothing[1];
    struct world *world = world_of_call(call);
    if (world == NULL || !need_engine(world, kind)) {
        *answer =
            (struct engine_answer){.kind = ENGINE_REFUSED, .number = world == NULL ? NUMBER_COMM : NUMBER_NO_MEMORY};
        return;
    }
    struct carried *own = answered[kind] = &world->engines[kind];
    if (data == NULL || len == 0) data = nothing;
    if (may_send(call->kind)) tell_before(own);
    if (world == &first_world) kombazily_call(&own->rank, call, data, len, answer);
    else ask_turned(world, own, *call, data, len, answer);
    if (answer->kind == ENGINE_BLOCKED) blocked = world;
}

void ask_engine(const struct engine_call *call, const void *data, size_t len, struct engine_answer *answer) {
    if (is_explored) {
        explored_call(call, 0, data, len, answer);
        return;
    }
    ask(OF_PROGRAMS, call, data, len, answer);
    if (call->kind == ENGINE_CANCEL || call->kind == ENGINE_MRECV) note_news();
}

size_t take_from_engine(uint64_t first, uint8_t *into, size_t len) {
    if (is_explored) return explored_take(first, into, len);
    return kombazily_take(&answered[OF_PROGRAMS]->rank, first, into, len);
}

void ask_plans(const struct engine_call *call, const void *data, size_t len, struct engine_answer *answer) {
    /* The order tells which plan it is (plan_runs.c). */
    if (is_explored) explored_call(call, (uint32_t)call->order, data, len, answer);
    else ask(OF_PLANS, call, data, len, answer);
}

size_t take_from_plans(uint8_t *into, size_t len) {
    return is_explored ? explored_take(0, into, len) : kombazily_take(&answered[OF_PLANS]->rank, 0, into, len);
}

/* An engine is in a collective, and answers nothing but FINISH and LOOK. */
static bool is_in_collective;

bool is_engine_in_collective(void) { return is_in_collective; }

void await_finish(struct engine_answer *answer) {
    const struct engine_call finish = {.kind = ENGINE_FINISH};
    progress_out();
    progress_begin_wait();
    is_in_collective = true;
    while (answer->kind == ENGINE_BLOCKED || answer->kind == ENGINE_PENDING) {
        progress_wait();
        ask_engine(&finish, NULL, 0, answer);
    }
    is_in_collective = false;
    note_news();
    progress_out();
    /* The program may know by this end of the end of a receive that it let go. Data of the answer are taken first. */
    if (answer->bytes == 0 && has_freed()) settle_freed();
}

void call_engine(const struct engine_call *call, const void *data, size_t len, struct engine_answer *answer) {
    free_engine();
    ask_engine(call, data, len, answer);
}
