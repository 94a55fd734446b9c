/* PMI-1 and PMI-2: see pmi.h. */
#define _GNU_SOURCE
#include "pmi.h"

#include <errno.h>
#include <fcntl.h>
#include <poll.h>
#include <stdarg.h>
#include <stdio.h>
#include <stdlib.h>
#include <string.h>
#include <sys/socket.h>
#include <time.h>
#include <unistd.h>

enum {
    LINE = 1024,     /* the longest line or record, as MPICH has it */
    FRONT = 6,       /* the bytes that say how long a record is */
    SILENCE = 10000, /* milliseconds behind which it is told once that an answer is waited for */
    SHOWN = 60,      /* bytes that are shown of an answer */
    GROUP = 16       /* ranks whose places go together: less than 400 bytes */
};

/* What stands in front of the number of a rank, and of a group of ranks. */
#define RANK_KEY "kombazily"
#define GROUP_KEY "kombazily-group"

/* What is said in each of the two: the command and that of its answer. */
struct exchange {
    const char *command, *answer;
};
static const struct {
    struct exchange put, meet, get, end;
} known[] = {
    [WIRE_LINES] = {{"put", "put_result"},
                    {"barrier_in", "barrier_out"},
                    {"get", "get_result"},
                    {"finalize", "finalize_ack"}},
    [WIRE_RECORDS] = {{"kvs-put", "kvs-put-response"},
                      {"kvs-fence", "kvs-fence-response"},
                      {"kvs-get", "kvs-get-response"},
                      {"finalize", "finalize-response"}},
};

static int wire = -1, own_rank, job_size;
static uint32_t version;
static const char *call = "MPI_Init"; /* of MPI that speaks */
static char fault[200];
static unsigned char held[2 * LINE]; /* what came and wasn't looked at */
static size_t held_len;
static unsigned char answer[LINE]; /* the last answer */
static size_t answer_len;
static char space[LINE]; /* the name of where places are put; of PMI-2 the job's own name */

const char *pmi_fault(void) { return fault; }

/* Notes what failed: false. */
static bool fail(const char *format, ...) __attribute__((format(printf, 1, 2)));
static bool fail(const char *format, ...) {
    va_list rest;
    va_start(rest, format);
    vsnprintf(fault, sizeof fault, format, rest);
    va_end(rest);
    return false;
}

/* ---- bytes ---- */

static bool say(const char *bytes, size_t len) {
    while (len > 0) {
        ssize_t done = send(wire, bytes, len, MSG_NOSIGNAL);
        if (done < 0 && errno == EINTR) continue;
        if (done < 0 && (errno == EPIPE || errno == ECONNRESET)) return fail("it has hung up");
        if (done < 0) return fail("PMI_FD: %s", strerror(errno));
        bytes += done;
        len -= (size_t)done;
    }
    return true;
}

/* Waits until something comes, however long; says so once. */
static void await(const char *command) {
    static bool is_told;
    struct pollfd it = {.fd = wire, .events = POLLIN};
    while (poll(&it, 1, is_told ? -1 : SILENCE) == 0) {
        fprintf(stderr, "rank %d: %s: its launcher hasn't answered '%s' for %d s\n", own_rank, call, command,
                SILENCE / 1000);
        is_told = true;
    }
}

/* Takes in more of what is answered to a command. */
static bool take_more(const char *command) {
    if (held_len == sizeof held) return fail("its answer to '%s' is too long", command);
    await(command);
    ssize_t came = recv(wire, held + held_len, sizeof held - held_len, 0);
    if (came < 0 && errno == EINTR) return true;
    if (came == 0 || (came < 0 && errno == ECONNRESET)) return fail("it has hung up: no answer to '%s'", command);
    if (came < 0) return fail("PMI_FD: %s", strerror(errno));
    held_len += (size_t)came;
    return true;
}

/* The next answer is these bytes of what is held, behind which so many more are dropped. */
static bool take_answer(const char *command, size_t from, size_t len, size_t dropped) {
    if (len > sizeof answer) return fail("its answer to '%s' is too long", command);
    memcpy(answer, held + from, len);
    answer_len = len;
    held_len -= from + len + dropped;
    memmove(held, held + from + len + dropped, held_len);
    return true;
}

/* Takes the next line. */
static bool hear_line(const char *command) {
    const unsigned char *end;
    while ((end = memchr(held, '\n', held_len)) == NULL)
        if (!take_more(command)) return false;
    return take_answer(command, 0, (size_t)(end - held), 1);
}

/* Takes the next record. */
static bool hear_record(const char *command) {
    while (held_len < FRONT)
        if (!take_more(command)) return false;
    uint64_t len = kombazily_record_length(held, FRONT);
    if (len == 0) return fail("its answer to '%s' is no record of PMI-2", command);
    if (len > sizeof answer) return fail("its answer to '%s' is too long", command);
    while (held_len < FRONT + len)
        if (!take_more(command)) return false;
    return take_answer(command, FRONT, (size_t)len, 0);
}

/* ---- questions ---- */

/* The beginning of the last answer, as it may be shown. */
static const char *shown_answer(void) {
    static char shown[SHOWN + 1];
    size_t len = answer_len < SHOWN ? answer_len : SHOWN;
    for (size_t at = 0; at < len; at++) shown[at] = (char)(answer[at] >= ' ' && answer[at] < 127 ? answer[at] : '?');
    shown[len] = '\0';
    return shown;
}

/* Whether the last answer is the one to a command, and tells no failure. */
static bool is_answered(const struct exchange *it, uint32_t form) {
    uint32_t is = kombazily_answer(answer, answer_len, (const uint8_t *)it->answer, strlen(it->answer), form);
    if (is == ANSWER_FAILED) return fail("'%s' failed: %s", it->command, shown_answer());
    if (is != ANSWER_GIVEN) return fail("its answer to '%s' is none of PMI: %s", it->command, shown_answer());
    return true;
}

/* Says a command with its words, which begin with the byte between two. */
static bool tell(const char *command, const char *format, ...) __attribute__((format(printf, 2, 3)));
static bool tell(const char *command, const char *format, ...) {
    char words[LINE], line[LINE + FRONT + 1];
    va_list rest;
    va_start(rest, format);
    int len = vsnprintf(words, sizeof words, format, rest);
    va_end(rest);
    bool is_line = version == WIRE_LINES;
    int whole = is_line
                    ? snprintf(line, sizeof line, "cmd=%s%s\n", command, words)
                    : snprintf(line, sizeof line, "%6d%s%s%s", (int)strlen(command) + 4 + len, "cmd=", command, words);
    if (len >= LINE || whole > LINE) return fail("what '%s' has to say is too long", command);
    return say(line, (size_t)whole);
}

/* Hears the answer to a command that was said. */
static bool hear(const struct exchange *it) {
    if (!(version == WIRE_LINES ? hear_line(it->command) : hear_record(it->command))) return false;
    return is_answered(it, version);
}

/* Copies the value of a key of the last answer, with a zero behind it: whether there is one that fits. */
static bool word(const char *key, char *value, size_t room) {
    size_t len =
        kombazily_word(answer, answer_len, (const uint8_t *)key, strlen(key), version, (uint8_t *)value, room - 1);
    value[len] = '\0';
    return len > 0 || fail("its answer has no word '%s': %s", key, shown_answer());
}

/* ---- the beginning ---- */

/* The first line has the same form in both. */
static bool open_version(void) {
    static const struct exchange init = {"init", "response_to_init"};
    char line[64];
    int len = snprintf(line, sizeof line, "cmd=init pmi_version=%u pmi_subversion=%d\n", version,
                       version == WIRE_LINES ? 1 : 0);
    if (!say(line, (size_t)len) || !hear_line(init.command) || !is_answered(&init, WIRE_LINES)) return false;
    if (kombazily_speaks(answer, answer_len, version)) return true;
    return fail("it doesn't speak PMI-%u (KOMBAZILY_PMI chooses): %s", version, shown_answer());
}

static bool open_lines(void) {
    static const struct exchange name = {"get_my_kvsname", "my_kvsname"};
    return tell(name.command, "%s", "") && hear(&name) && word("kvsname", space, sizeof space);
}

static bool open_records(void) {
    static const struct exchange full = {"fullinit", "fullinit-response"}, name = {"job-getid", "job-getid-response"};
    const char *job = getenv("PMI_JOBID");
    bool is_told = job != NULL ? tell(full.command, ";pmijobid=%s;pmirank=%d;threaded=FALSE;", job, own_rank)
                               : tell(full.command, ";pmirank=%d;threaded=FALSE;", own_rank);
    if (!is_told || !hear(&full) || !tell(name.command, "%s", ";") || !hear(&name)) return false;
    return word("jobid", space, sizeof space);
}

bool pmi_open(const struct launch_way *way) {
    wire = (int)way->descriptor;
    version = way->wire;
    own_rank = way->rank;
    job_size = way->size;
    held_len = 0;
    if (fcntl(wire, F_SETFD, FD_CLOEXEC) != 0) {
        wire = -1;
        return fail("PMI_FD: %s", strerror(errno));
    }
    return open_version() && (version == WIRE_LINES ? open_lines() : open_records());
}

/* ---- places ---- */

/* Puts a value under a key of this kind and number. */
static bool put(const char *kind, int number, const char *value) {
    const struct exchange *it = &known[version].put;
    bool is_told = version == WIRE_LINES
                       ? tell(it->command, " kvsname=%s key=%s-%d value=%s", space, kind, number, value)
                       : tell(it->command, ";key=%s-%d;value=%s;", kind, number, value);
    return is_told && hear(it);
}

/* Gets it, in room for a line. */
static bool get(const char *kind, int number, char *value) {
    const struct exchange *it = &known[version].get;
    bool is_told = version == WIRE_LINES ? tell(it->command, " kvsname=%s key=%s-%d", space, kind, number)
                                         : tell(it->command, ";jobid=%s;srcid=-1;key=%s-%d;", space, kind, number);
    return is_told && hear(it) && word("value", value, LINE);
}

/* Waits until all ranks have put theirs. */
static bool meet(void) {
    const struct exchange *it = &known[version].meet;
    return tell(it->command, "%s", version == WIRE_LINES ? "" : ";") && hear(it);
}

static bool put_own(const struct told_place *own) {
    char text[64];
    size_t len = kombazily_place_text(own, (uint8_t *)text, sizeof text - 1);
    text[len] = '\0';
    return len > 0 ? put(RANK_KEY, own_rank, text) : fail("no memory");
}

/* Puts the places of the ranks of a group, from this one on, as one value. */
static bool put_group(int first) {
    char all[LINE] = "", text[LINE];
    for (int rank = first; rank < first + GROUP && rank < job_size; rank++) {
        size_t len = strlen(all);
        if (!get(RANK_KEY, rank, text)) return false;
        int added = snprintf(all + len, sizeof all - len, "%s%s", rank > first ? "," : "", text);
        if (len + (size_t)added >= sizeof all) return fail("the places of ranks from %d on are too long", first);
    }
    return put(GROUP_KEY, first / GROUP, all);
}

/* Notes what a rank tells of its place. */
static bool note_place(int rank, const char *text, struct addresses *job, uint64_t *number) {
    struct told_place place;
    if (!kombazily_read_place((const uint8_t *)text, strlen(text), (uint16_t)rank, &place))
        return fail("what rank %d tells of its place is none: %.*s", rank, SHOWN, text);
    if (rank == 0) *number = place.job;
    job->of_rank[rank] = place.address;
    job->port_of[rank] = place.port;
    return true;
}

/* Notes the places of the ranks of a group. */
static bool note_group(int first, struct addresses *job, uint64_t *number) {
    char text[LINE], *rest = text;
    if (!get(GROUP_KEY, first / GROUP, text)) return false;
    for (int rank = first; rank < first + GROUP && rank < job_size; rank++) {
        const char *own = strsep(&rest, ",");
        if (!note_place(rank, own != NULL ? own : "", job, number)) return false;
    }
    return rest == NULL || fail("more ranks than there are tell their places: %.*s", SHOWN, rest);
}

/* Each would ask for each: in a larger job the first rank of each group asks for those of its group, and puts them
 * together. */
bool pmi_exchange(const struct told_place *own, struct addresses *job, uint64_t *number) {
    char text[LINE];
    if (!put_own(own) || !meet()) return false;
    if (job_size <= GROUP) {
        for (int rank = 0; rank < job_size; rank++)
            if (!get(RANK_KEY, rank, text) || !note_place(rank, text, job, number)) return false;
        return true;
    }
    if (own_rank % GROUP == 0 && !put_group(own_rank)) return false;
    if (!meet()) return false;
    for (int first = 0; first < job_size; first += GROUP)
        if (!note_group(first, job, number)) return false;
    return true;
}

/* ---- the end ---- */

void pmi_close(void) {
    if (wire < 0) return;
    const struct exchange *it = &known[version].end;
    call = "MPI_Finalize";
    if (tell(it->command, "%s", version == WIRE_LINES ? "" : ";")) (void)hear(it);
    close(wire);
    wire = -1;
}

bool pmi_is_open(void) { return wire >= 0; }

void pmi_abort(int code) {
    /* Launchers read this wire and what a rank writes side by side, and drop what they haven't read once they end the
     * job: they get the time to read it. */
    static const struct timespec while_it_reads = {.tv_nsec = 50000000};
    if (wire < 0) return;
    (void)nanosleep(&while_it_reads, NULL);
    if (version == WIRE_LINES) (void)tell("abort", " exitcode=%d", code);
    else (void)tell("abort", ";isworld=TRUE;msg=code %d;", code);
}
