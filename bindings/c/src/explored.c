/* Calls of a rank under the explorer: see explored.h. */
#include "explored.h"

#include <errno.h>
#include <stdlib.h>
#include <string.h>
#include <sys/socket.h>

enum { MILLISECOND = 1000000 };

bool is_explored;

/* What goes to the explorer with the next ask that is answered. */
static struct {
    unsigned char bytes[1 << 16];
    size_t length;
} out;

/* The last answer, and what stood behind it. */
static struct explorer_answer told;
static struct {
    uint32_t *of;
    uint32_t room;
} places;
static struct {
    uint8_t *own;        /* what came */
    const uint8_t *from; /* what is taken from: that, or what was lent */
    size_t room, length;
    uint32_t basic;
} data;

/* Numbers of requests: those that are free, and how many there ever were. */
static struct {
    uint64_t *free;
    size_t count, room;
    uint64_t ever, serial;
} keys;

uint64_t explored_nanoseconds(void) {
    static uint64_t now = 1000 * MILLISECOND;
    return now += MILLISECOND;
}

/* ---- bytes ---- */

static void put(const void *from, size_t len) {
    for (const char *at = from; len > 0;) {
        ssize_t done = send(explored_socket(), at, len, MSG_NOSIGNAL);
        if (done < 0 && errno == EINTR) continue;
        if (done <= 0) explored_lose();
        at += done, len -= (size_t)done;
    }
}

static void get(void *into, size_t len) {
    for (char *at = into; len > 0;) {
        ssize_t done = recv(explored_socket(), at, len, 0);
        if (done < 0 && errno == EINTR) continue;
        if (done <= 0) explored_lose();
        at += done, len -= (size_t)done;
    }
}

static void flush_out(void) {
    put(out.bytes, out.length);
    out.length = 0;
}

static void put_later(const void *from, size_t len) {
    if (len == 0) return;
    if (len > sizeof out.bytes - out.length) flush_out();
    if (len > sizeof out.bytes) {
        put(from, len);
        return;
    }
    memcpy(out.bytes + out.length, from, len);
    out.length += len;
}

/* ---- numbers of requests ---- */

static struct engine_request new_request(void) {
    uint64_t key = keys.count > 0 ? keys.free[--keys.count] : keys.ever++;
    return (struct engine_request){key, ++keys.serial};
}

void explored_free_key(uint64_t key) {
    if (keys.count == keys.room) {
        keys.room = keys.room == 0 ? 64 : 2 * keys.room;
        keys.free = realloc(keys.free, keys.room * sizeof *keys.free);
        if (keys.free == NULL) explored_lose();
    }
    keys.free[keys.count++] = key;
}

void explored_start(void) {
    const struct explorer_ask ask = {.kind = ASK_START, .call.order = EXPLORER_VERSION, .name = "MPI_Init"};
    put(&ask, sizeof ask);
}

/* ---- collectives by sends and receives ---- */

/* Whether these numbers, less one, name collectives that are on their way. */
static struct {
    bool *are_used;
    uint32_t room;
} plans;

static uint32_t new_plan(void) {
    uint32_t at = 0;
    while (at < plans.room && plans.are_used[at]) at++;
    if (at == plans.room) {
        plans.room = plans.room == 0 ? 16 : 2 * plans.room;
        plans.are_used = realloc(plans.are_used, plans.room * sizeof *plans.are_used);
        if (plans.are_used == NULL) explored_lose();
        memset(plans.are_used + at, 0, (plans.room - at) * sizeof *plans.are_used);
    }
    plans.are_used[at] = true;
    return at + 1;
}

void explored_leave(uint32_t plan) {
    if (plan != 0) plans.are_used[plan - 1] = false;
}

/* ---- asks ---- */

static void tell(struct explorer_ask *ask, const struct explorer_entry *entries, const void *bytes) {
    uint64_t frames[EXPLORER_FRAMES];
    const char *name = process.call;
    ask->calls = (uint32_t)process.calls;
    if (kombazily_played_place != NULL) ask->frame_count = kombazily_played_place(frames, &name);
    else ask->frame_count = explored_frames(frames);
    strncpy(ask->name, name, sizeof ask->name - 1);
    put_later(ask, sizeof *ask);
    put_later(frames, ask->frame_count * sizeof *frames);
    put_later(entries, ask->count * sizeof *entries);
    put_later(bytes, ask->length);
}

static void take_places(uint32_t count) {
    if (count > places.room) {
        free(places.of);
        places.of = malloc(count * sizeof *places.of);
        places.room = count;
        if (places.of == NULL) explored_lose();
    }
    get(places.of, count * sizeof *places.of);
}

static void take_bytes(size_t length) {
    if (length > data.room) {
        free(data.own);
        data.own = malloc(length);
        data.room = length;
        if (data.own == NULL) explored_lose();
    }
    get(data.own, length);
}

/* Takes an answer in. Where the explorer wants to know where the rank stands, it is told that before. */
static void take_answer(void) {
    for (;;) {
        get(&told, sizeof told);
        if (!told.wants_place) return;
        explored_want_places();
        tell(&(struct explorer_ask){.kind = ASK_PLACE}, NULL, NULL);
        flush_out();
    }
}

const struct explorer_answer *explored_ask(struct explorer_ask *ask, const struct explorer_entry *entries,
                                           const void *bytes, const uint32_t **found) {
    tell(ask, entries, bytes);
    flush_out();
    take_answer();
    if (told.count > 0) take_places(told.count);
    if (told.answer.bytes > 0) {
        take_bytes(told.answer.bytes);
        explored_lend(data.own, &told.answer);
    }
    if (found != NULL) *found = places.of;
    return &told;
}

void explored_lend(const uint8_t *from, const struct engine_answer *answer) {
    data.from = from;
    data.length = answer->bytes;
    data.basic = answer->basic;
}

uint8_t *explored_keep(void) {
    uint8_t *kept = data.own;
    data.own = NULL;
    data.room = data.length = 0;
    return kept;
}

/* Asks for a request's end, or for something that has no entries and no bytes. */
static struct engine_answer answer_of(struct explorer_ask ask) { return explored_ask(&ask, NULL, NULL, NULL)->answer; }

/* ---- calls ---- */

uint32_t explored_enter(const char *name, const struct engine_call *entry, bool waits,
                        const struct explorer_block *blocks, size_t count) {
    struct explorer_ask ask = {
        .kind = ASK_ENTER, .plan = new_plan(), .is_waiting = waits, .call = *entry, .length = count * sizeof *blocks};
    const char *called = process.call;
    process.call = name;
    tell(&ask, NULL, blocks);
    process.call = called;
    return ask.plan;
}

size_t explored_received(const struct explorer_entry *sends, size_t count) {
    struct explorer_ask ask = {.kind = ASK_KEPT, .count = (uint32_t)count};
    return (size_t)explored_ask(&ask, sends, NULL, NULL)->answer.fact;
}

static bool is_next_ready;

void explored_note_ready(bool is_ready) { is_next_ready = is_ready; }

void explored_call(const struct engine_call *call, uint32_t plan, const void *bytes, size_t len,
                   struct engine_answer *answer) {
    struct explorer_ask ask = {.kind = ASK_CALL, .plan = plan, .call = *call, .length = len};
    const bool is_later_copy = call->kind == ENGINE_DUP && plan != 0;
    if (call->kind == ENGINE_ISEND || call->kind == ENGINE_ISSEND || call->kind == ENGINE_IRECV || is_later_copy) {
        ask.kind = ASK_POST;
        ask.call.request = new_request();
        ask.is_ready = is_next_ready && plan == 0 && call->kind != ENGINE_IRECV;
        is_next_ready = false;
        tell(&ask, NULL, bytes);
        *answer = (struct engine_answer){.kind = ENGINE_STARTED, .request = ask.call.request};
        return;
    }
    *answer = explored_ask(&ask, NULL, bytes, NULL)->answer;
    if (call->kind == ENGINE_TEST && answer->kind != ENGINE_PENDING) explored_free_key(call->request.key);
}

size_t explored_take(uint64_t first, uint8_t *into, size_t len) {
    static const unsigned char sizes[] = {1, 1, 2, 4, 8, 1, 2, 4, 8, 1, 4, 8};
    size_t size = data.basic < sizeof sizes ? sizes[data.basic] : 1;
    size_t from = first < data.length / size ? first * size : data.length;
    size_t most = data.length - from < len ? data.length - from : len;
    most -= most % size;
    if (most > 0) memcpy(into, data.from + from, most);
    return most;
}

void explored_pause(void) { (void)answer_of((struct explorer_ask){.kind = ASK_PAUSE}); }

void explored_probe(const struct engine_call *probe, bool waits, struct engine_answer *answer) {
    *answer = answer_of((struct explorer_ask){.kind = ASK_PROBE, .call = *probe, .is_waiting = waits});
}

bool explored_error(enum explorer_ask_kind kind, const char *call, int class, const char *text) {
    if (explored_socket() < 0) return kind == ASK_RETURNED;
    process.call = call;
    struct explorer_ask ask = {.kind = kind, .call.order = class, .length = strlen(text)};
    return explored_ask(&ask, NULL, text, NULL)->answer.fact == 1;
}

void explored_made(enum made_kind kind, uint32_t number) {
    struct explorer_ask ask = {.kind = ASK_MADE, .call.order = (int32_t)kind, .call.peer = (int32_t)number};
    if (is_explored && explored_socket() >= 0) tell(&ask, NULL, NULL);
}

void explored_freed(uint32_t communicator) {
    struct explorer_ask ask = {.kind = ASK_FREED, .call.communicator = communicator};
    if (is_explored && explored_socket() >= 0) tell(&ask, NULL, NULL);
}

void explored_refuse(const char *call, const char *cause) {
    if (!is_explored) return;
    (void)explored_error(ASK_UNSUPPORTED, call, 0, cause);
    explored_lose();
}

void explored_abort(int code) {
    process.call = "MPI_Abort";
    (void)answer_of((struct explorer_ask){.kind = ASK_ABORT, .call.order = code});
}

struct begun begun_here(void) {
    struct begun made = {.name = process.call, .caller = process.caller, .call = process.calls};
    strncpy(made.told.name, made.name, sizeof made.told.name - 1);
    if (is_explored) made.told.frame_count = explored_frames(made.told.frames);
    return made;
}

void explored_misuse(enum misuse misuse, const struct begun *begun) {
    struct explorer_ask ask = {.kind = ASK_MISUSE, .call.order = (int32_t)misuse, .length = sizeof begun->told};
    (void)explored_ask(&ask, NULL, &begun->told, NULL);
}
