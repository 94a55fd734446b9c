/* Two ranks of the engine in one process, which hands over their datagrams in memory and has a clock of its own: no
 * socket, no waiting, so each run takes the same instructions. tools/benchmarks/c/instructions counts them.
 *
 *   engines BYTES COUNT FRAME ROOM     so many messages from rank 0 to rank 1, of so many bytes each, in frames of so
 *                                      many bytes of data; what comes is checked. ROOM is what the socket of each
 *                                      would keep, for windows; 0 for none
 */
#include "engine.h"

#include <stdio.h>
#include <stdlib.h>
#include <string.h>

enum {
    RANKS = 2,
    MOST_TOGETHER = 60,
    LONGEST_TOGETHER = 65000,
    MICROSECOND = 1000,
    MILLISECOND = 1000000,
    PATIENCE = 1000
};

static struct engine_rank ranks[RANKS];
static unsigned char room[LONGEST_TOGETHER];
static uint64_t now = MILLISECOND;

static _Noreturn void give_up(const char *why, unsigned number) {
    fprintf(stderr, "engines: %s (%u)\n", why, number);
    exit(1);
}

/* Hands over what a rank sends: whether it sent something. */
static bool carry_from(int source) {
    struct engine_outgoing out = {0};
    bool has_sent = false;
    for (;;) {
        size_t len = kombazily_next(&ranks[source], MOST_TOGETHER, false, &out, room, sizeof room);
        if (len == 0) return has_sent;
        has_sent = true;
        for (size_t at = 0; at < len; at += out.each) {
            size_t own = len - at < out.each ? len - at : out.each;
            uint32_t number = kombazily_datagram(&ranks[1 - source], room + at, own);
            if (number != 0) give_up("a datagram is refused", number);
        }
    }
}

static void carry(void) {
    for (bool has_sent = true; has_sent;) {
        has_sent = carry_from(0);
        has_sent |= carry_from(1);
    }
}

static struct engine_answer call(int rank, struct engine_call it, const unsigned char *data, size_t len) {
    static const unsigned char nothing[1];
    struct engine_answer answer;
    kombazily_call(&ranks[rank], &it, data == NULL ? nothing : data, len, &answer);
    return answer;
}

static struct engine_request begin(int rank, struct engine_call it, const unsigned char *data, size_t len) {
    struct engine_answer answer = call(rank, it, data, len);
    if (answer.kind != ENGINE_STARTED) give_up("a call is refused", answer.number);
    return answer.request;
}

/* Carries datagrams, and lets time pass, until a request is at its end: the bytes that it brought. */
static uint64_t await(int rank, struct engine_request request) {
    for (int asked = 0; asked < PATIENCE; asked++) {
        carry();
        struct engine_answer answer =
            call(rank, (struct engine_call){.kind = ENGINE_TEST, .request = request}, NULL, 0);
        if (answer.kind == ENGINE_DONE) return answer.bytes;
        now += MICROSECOND;
        /* Frames may go again by one tick each millisecond, as the library has it. */
        for (int it = 0; it < RANKS; it++) kombazily_tick(&ranks[it], now, now % MILLISECOND == 0);
    }
    give_up("a request doesn't end", 0);
}

/* One message, from the call that sends it until its data are where they were wanted. */
static void pass_message(const unsigned char *from, unsigned char *into, size_t len) {
    struct engine_call send = {.kind = ENGINE_ISEND, .peer = 1, .tag = 1, .basic = ENGINE_BYTE};
    struct engine_call receive = {.kind = ENGINE_IRECV, .peer = 0, .tag = 1, .basic = ENGINE_BYTE, .count = len};
    struct engine_request out = begin(0, send, from, len);
    struct engine_request in = begin(1, receive, NULL, 0);
    uint64_t came = await(1, in);
    if (came != len || kombazily_take(&ranks[1], 0, into, len) != len)
        give_up("a message is cut short", (unsigned)came);
    await(0, out);
}

/* Instructions are counted in here. */
__attribute__((noinline)) void measured(const unsigned char *from, unsigned char *into, size_t len, long count) {
    for (long i = 0; i < count; i++) pass_message(from, into, len);
}

int main(int count, char **words) {
    if (count != 5) return 2;
    size_t len = strtoul(words[1], NULL, 10);
    unsigned char *from = malloc(len + 1), *into = calloc(1, len + 1);
    if (from == NULL || into == NULL) return 2;
    for (size_t at = 0; at < len; at++) from[at] = (unsigned char)(at * 31 + at / 1021);
    for (int it = 0; it < RANKS; it++) {
        struct engine_place place = {.job = 7, .message_limit = 1 << 20, .rank = (uint16_t)it, .size = RANKS,
                                     .frame_limit = (uint32_t)strtoul(words[3], NULL, 10),
                                     .room = (uint32_t)strtoul(words[4], NULL, 10)};
        uint32_t number = kombazily_new(&ranks[it], &place);
        if (number != 0) give_up("there is no rank", number);
    }
    pass_message(from, into, len);
    measured(from, into, len, atol(words[2]));
    if (memcmp(from, into, len) != 0) give_up("a message has other bytes", 0);
    for (int it = 0; it < RANKS; it++) kombazily_free(&ranks[it]);
    free(from);
    free(into);
    return 0;
}
