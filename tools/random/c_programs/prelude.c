/* What the blocks of a random program stand on: what they observe, rooms for data, ways to end requests. The program
 * writes a line for each block of each rank, with a digest of all that was observed there.
 *
 *   program [details] [FOLDER]
 *
 * With the word `details` each observation is a line; with a folder they go into the file of the rank's number there. */
#define _GNU_SOURCE
#include <mpi.h>

#include <pthread.h>
#include <sched.h>
#include <stdarg.h>
#include <stddef.h>
#include <stdint.h>
#include <stdio.h>
#include <stdlib.h>
#include <string.h>

#pragma GCC diagnostic ignored "-Wunused-function"
#pragma GCC diagnostic ignored "-Wunused-variable"

enum { EDGE = 64, EMPTY = 0x5a, COMMS = 256 };

struct log {
    char *text;
    size_t length, space;
};
static struct log main_log;
static _Thread_local struct log *own_log = &main_log;
static int world_rank, world_size, has_details;
static FILE *out;
static MPI_Comm comms[COMMS];

/* ---- what is observed ---- */

static void observe(const char *form, ...) {
    char line[600];
    va_list words;
    va_start(words, form);
    int length = vsnprintf(line, sizeof line - 1, form, words);
    va_end(words);
    length = length > (int)sizeof line - 2 ? (int)sizeof line - 2 : length;
    line[length++] = '\n';
    if (own_log->length + (size_t)length > own_log->space) {
        own_log->space = 2 * own_log->space + 4096;
        own_log->text = realloc(own_log->text, own_log->space);
    }
    memcpy(own_log->text + own_log->length, line, (size_t)length);
    own_log->length += (size_t)length;
}

static uint64_t sum_from(uint64_t sum, const void *bytes, size_t length) {
    for (const unsigned char *at = bytes; length; at++, length--) sum = (sum ^ *at) * 0x100000001b3;
    return sum;
}
static uint32_t sum_of(const void *bytes, size_t length) {
    uint64_t sum = sum_from(0xcbf29ce484222325, bytes, length);
    return (uint32_t)(sum ^ sum >> 32);
}

/* Writes what a block observed, and begins anew. */
static void told(int block, const char *name) {
    if (!has_details) {
        fprintf(out, "%d %d %s %08x\n", world_rank, block, name, (unsigned)sum_of(main_log.text, main_log.length));
    } else {
        fprintf(out, "%d begin %s\n", block, name);
        for (char *at = main_log.text, *end = at + main_log.length; at && at < end;) {
            char *next = memchr(at, '\n', (size_t)(end - at)) + 1;
            fprintf(out, "%d ", block);
            fwrite(at, 1, (size_t)(next - at), out);
            at = next;
        }
    }
    fflush(out);
    main_log.length = 0;
}

/* ---- data ---- */

static uint32_t mixed(uint32_t one, uint32_t two, uint32_t three) {
    uint32_t x = one * 2654435761u + two * 2246822519u + three * 3266489917u + 374761393u;
    x ^= x >> 15, x *= 2246822519u, x ^= x >> 13;
    return x;
}

/* A room is memory with edges, which a program may write no more than gaps between data. */
struct room {
    struct room *below;
    size_t length;
    unsigned char bytes[];
};
static struct room *rooms;
static int rooms_are_kept;
static pthread_mutex_t rooms_lock = PTHREAD_MUTEX_INITIALIZER;

static unsigned char *room(size_t length) {
    struct room *made = malloc(sizeof *made + length + 2 * EDGE);
    memset(made->bytes, EMPTY, length + 2 * EDGE);
    made->length = length;
    pthread_mutex_lock(&rooms_lock);
    made->below = rooms, rooms = made;
    pthread_mutex_unlock(&rooms_lock);
    return made->bytes + EDGE;
}
static void leave_rooms(void) {
    while (rooms && !rooms_are_kept) {
        struct room *below = rooms->below;
        free(rooms);
        rooms = below;
    }
}
static unsigned char *fill(void *at, size_t length, unsigned seed) {
    uint32_t x = mixed(seed, 1, 2) | 1;
    for (size_t i = 0; i < length; i++) x ^= x << 13, x ^= x >> 17, x ^= x << 5, ((unsigned char *)at)[i] = (unsigned char)(x >> 11);
    return at;
}
static unsigned char *filled(size_t length, unsigned seed) { return fill(room(length), length, seed); }
/* Truth values are 0 and 1. */
static unsigned char *filled_truths(size_t length, unsigned seed) {
    unsigned char *at = filled(length, seed);
    for (size_t i = 0; i < length; i++) at[i] &= 1;
    return at;
}
/* The bytes of a long double that hold nothing are as those of an empty room: each stands at a multiple of 8. */
static unsigned char *filled_long_doubles(size_t length, unsigned seed) {
    unsigned char *at = filled(length, seed);
    for (size_t i = 0; i < length; i++) at[i] = i % 8 < 2 ? at[i] : EMPTY;
    return at;
}
static uint32_t room_sum(const unsigned char *at) {
    const struct room *it = (const struct room *)(at - EDGE - offsetof(struct room, bytes));
    return sum_of(it->bytes, it->length + 2 * EDGE);
}
static int length_of(unsigned seed, int place, int most) { return (int)(mixed(seed, (uint32_t)place, 77) % (unsigned)(most + 1)); }
static int *numbers(int count) { return (int *)room(sizeof(int) * (size_t)(count + 1)); }

/* ---- statuses and classes ---- */

static const char *rank_word(int rank) {
    static _Thread_local char word[4][24];
    static _Thread_local int at;
    at = (at + 1) % 4;
    if (rank == MPI_PROC_NULL) return "none";
    if (rank == MPI_ANY_SOURCE) return "any";
    if (rank == MPI_UNDEFINED) return "undefined";
    snprintf(word[at], sizeof word[at], "%d", rank);
    return word[at];
}
static const char *tag_word(int tag) { return tag == MPI_ANY_TAG ? "any" : rank_word(tag); }

/* Where elements are of one length and of several types they aren't told: see known.py. */
static void tell_status(const char *what, MPI_Status *status, MPI_Datatype type, int has_pairs) {
    int count, elements = 0, is_cancelled;
    MPI_Count many = 0;
    MPI_Get_count(status, type, &count);
    MPI_Test_cancelled(status, &is_cancelled);
    if (!has_pairs) {
        MPI_Get_elements(status, type, &elements);
        MPI_Get_elements_x(status, type, &many);
    }
    observe("%s source %s tag %s count %s elements %s %lld cancelled %d", what, rank_word(status->MPI_SOURCE), tag_word(status->MPI_TAG),
            rank_word(count), rank_word(elements), (long long)many, is_cancelled != 0);
}
static void tell_room(const char *what, const unsigned char *at) { observe("%s data %08x", what, (unsigned)room_sum(at)); }

static const char *class_word(int code) {
    static const struct {
        int class;
        const char *name;
    } all[] = {{MPI_SUCCESS, "success"}, {MPI_ERR_BUFFER, "buffer"}, {MPI_ERR_COUNT, "count"}, {MPI_ERR_TYPE, "type"},
               {MPI_ERR_TAG, "tag"}, {MPI_ERR_COMM, "comm"}, {MPI_ERR_RANK, "rank"}, {MPI_ERR_REQUEST, "request"},
               {MPI_ERR_ROOT, "root"}, {MPI_ERR_GROUP, "group"}, {MPI_ERR_OP, "op"}, {MPI_ERR_TOPOLOGY, "topology"},
               {MPI_ERR_DIMS, "dims"}, {MPI_ERR_ARG, "arg"}, {MPI_ERR_UNKNOWN, "unknown"}, {MPI_ERR_TRUNCATE, "truncate"},
               {MPI_ERR_OTHER, "other"}, {MPI_ERR_INTERN, "intern"}, {MPI_ERR_PENDING, "pending"}, {MPI_ERR_IN_STATUS, "in status"},
               {MPI_ERR_KEYVAL, "keyval"}, {MPI_ERR_NO_MEM, "no mem"}, {MPI_ERR_INFO_KEY, "info key"},
               {MPI_ERR_INFO_VALUE, "info value"}, {MPI_ERR_INFO_NOKEY, "info nokey"}, {MPI_ERR_INFO, "info"},
               {MPI_ERR_NOT_SAME, "not same"}, {MPI_ERR_UNSUPPORTED_OPERATION, "unsupported"},
               {MPI_ERR_UNSUPPORTED_DATAREP, "unsupported datarep"}};
    int class = -1;
    MPI_Error_class(code, &class);
    for (size_t i = 0; i < sizeof all / sizeof *all; i++) {
        if (all[i].class == class) return all[i].name;
    }
    return "another class";
}
static void tell_class(const char *what, int code) { observe("%s: %s", what, class_word(code)); }

static const char *compared_word(int told) {
    return told == MPI_IDENT ? "ident" : told == MPI_CONGRUENT ? "congruent" : told == MPI_SIMILAR ? "similar" : told == MPI_UNEQUAL ? "unequal" : "?";
}

/* ---- ends of requests ---- */

enum { BY_WAITALL, BY_TESTALL, BY_WAITANY, BY_TESTANY, BY_WAITSOME, BY_TESTSOME, BY_WAIT, BY_TEST, BY_GET_STATUS, WAYS };

static int is_a_way(int how, int count, MPI_Request *q, MPI_Status *statuses, int *is_done) {
    int place = MPI_UNDEFINED, is_there = 0;
    MPI_Status status;
    if (how == BY_WAITANY) {
        MPI_Waitany(count, q, &place, &status);
        is_there = 1;
    } else if (how == BY_TESTANY) {
        MPI_Testany(count, q, &place, &is_there, &status);
    } else {
        return 0;
    }
    if (is_there && place != MPI_UNDEFINED) statuses[place] = status;
    *is_done = is_there && place == MPI_UNDEFINED;
    return 1;
}
static void end_some(int how, int count, MPI_Request *q, MPI_Status *statuses) {
    int *places = malloc(sizeof *places * (size_t)(count + 1)), found;
    MPI_Status *some = malloc(sizeof *some * (size_t)(count + 1));
    do {
        if (how == BY_WAITSOME) MPI_Waitsome(count, q, &found, places, some);
        if (how == BY_TESTSOME) MPI_Testsome(count, q, &found, places, some);
        for (int i = 0; found != MPI_UNDEFINED && i < found; i++) statuses[places[i]] = some[i];
        if (found == 0) sched_yield();
    } while (found != MPI_UNDEFINED);
    free(places), free(some);
}
static void end_each(int how, int count, MPI_Request *q, MPI_Status *statuses) {
    for (int i = count - 1; i >= 0; i--) {
        int is_done = 0;
        while (how == BY_GET_STATUS && !is_done) {
            MPI_Request_get_status(q[i], &is_done, &statuses[i]);
            if (!is_done) sched_yield();
        }
        for (is_done = 0; how == BY_TEST && !is_done;) {
            MPI_Test(&q[i], &is_done, &statuses[i]);
            if (!is_done) sched_yield();
        }
        if (how != BY_TEST) MPI_Wait(&q[i], &statuses[i]);
    }
}
/* Ends all of these requests in one of the ways; each has its status then. */
static void end_all(int how, int count, MPI_Request *q, MPI_Status *statuses) {
    int is_done = 0;
    if (how == BY_WAITALL) {
        MPI_Waitall(count, q, statuses);
    } else if (how == BY_TESTALL) {
        while (!is_done) {
            MPI_Testall(count, q, &is_done, statuses);
            if (!is_done) sched_yield();
        }
    } else if (how == BY_WAITSOME || how == BY_TESTSOME) {
        end_some(how, count, q, statuses);
    } else if (is_a_way(how, count, q, statuses, &is_done)) {
        while (!is_done) {
            is_a_way(how, count, q, statuses, &is_done);
            if (how == BY_TESTANY && !is_done) sched_yield();
        }
    } else {
        end_each(how, count, q, statuses);
    }
}
static void free_all(int count, MPI_Request *q) {
    for (int i = 0; i < count; i++) {
        if (q[i] != MPI_REQUEST_NULL) MPI_Request_free(&q[i]);
    }
}

/* ---- probes ---- */

static void probe_often(int source, int tag, MPI_Comm comm, MPI_Status *status) {
    for (int flag = 0; !flag;) {
        MPI_Iprobe(source, tag, comm, &flag, status);
        if (!flag) sched_yield();
    }
}
static void mprobe_often(int source, int tag, MPI_Comm comm, MPI_Message *message, MPI_Status *status) {
    for (int flag = 0; !flag;) {
        MPI_Improbe(source, tag, comm, &flag, message, status);
        if (!flag) sched_yield();
    }
}

/* ---- sends in a buffer ---- */

static int buffered(int count, MPI_Datatype type, MPI_Comm comm) {
    int bytes;
    MPI_Pack_size(count, type, comm, &bytes);
    return bytes + MPI_BSEND_OVERHEAD;
}
static void attach(int bytes) { MPI_Buffer_attach(malloc((size_t)bytes), bytes); }
static void detach(int bytes) {
    void *buffer;
    int had;
    MPI_Buffer_detach(&buffer, &had);
    observe("detached %d", had == bytes);
    free(buffer);
}

/* ---- communicators ---- */

static int enter(MPI_Comm comm, int *me, int *size) {
    *me = 0, *size = 1;
    if (comm == MPI_COMM_NULL) return 0;
    MPI_Comm_rank(comm, me);
    MPI_Comm_size(comm, size);
    return 1;
}
/* Whose ranks these are, in the order of the communicator. */
static void tell_comm(const char *what, MPI_Comm comm) {
    if (comm == MPI_COMM_NULL) {
        observe("%s none", what);
        return;
    }
    int me, size, is_inter, ranks[64], own[64];
    MPI_Group all, group;
    MPI_Comm_rank(comm, &me);
    MPI_Comm_size(comm, &size);
    MPI_Comm_test_inter(comm, &is_inter);
    MPI_Comm_group(MPI_COMM_WORLD, &all);
    MPI_Comm_group(comm, &group);
    for (int i = 0; i < size; i++) own[i] = i;
    MPI_Group_translate_ranks(group, size, own, all, ranks);
    observe("%s rank %d of %d, inter %d", what, me, size, is_inter != 0);
    for (int i = 0; i < size; i++) observe("%s has %s", what, rank_word(ranks[i]));
    MPI_Group_free(&all);
    MPI_Group_free(&group);
}

/* ---- operations of the program ---- */

/* Sums of 32 bits: they commute. */
static void add_words(void *in, void *inout, int *length, MPI_Datatype *type) {
    (void)type;
    for (int i = 0; i < *length; i++) ((uint32_t *)inout)[i] += ((uint32_t *)in)[i];
}
/* x -> a x + b in two words: first what is told first. They don't commute. */
static void compose(const uint32_t *first, uint32_t *second) {
    uint32_t a = first[0], b = first[1];
    second[1] += second[0] * b, second[0] *= a;
}
static void compose_pairs(void *in, void *inout, int *length, MPI_Datatype *type) {
    (void)type;
    for (int i = 0; i < *length; i++) compose((uint32_t *)in + 2 * i, (uint32_t *)inout + 2 * i);
}
/* The same in items of four words, of which the first and the last are the two. */
static void compose_wide(void *in, void *inout, int *length, MPI_Datatype *type) {
    (void)type;
    for (int i = 0; i < *length; i++) {
        uint32_t *one = (uint32_t *)in + 4 * i, *other = (uint32_t *)inout + 4 * i;
        uint32_t first[2] = {one[0], one[3]}, second[2] = {other[0], other[3]};
        compose(first, second);
        other[0] = second[0], other[3] = second[1];
    }
}

/* ---- numbers for predefined operations: small ones, so that no order rounds or overflows ---- */

static int small_number(const char *op, unsigned seed, int rank, int place) {
    int drawn = (int)(mixed(seed, (unsigned)rank, (unsigned)place) % 1000);
    if (!strcmp(op, "prod")) return rank < 5 ? 1 + drawn % 2 : 1;
    if (op[0] == 'l') return drawn % 3 ? drawn % 5 : 0;
    return drawn % (!strcmp(op, "sum") ? 12 : 100);
}
static void tell_numbers(const char *what, const void *items, size_t count, size_t extent, size_t part, size_t second) {
    uint64_t sum = 7;
    for (size_t i = 0; i < count; i++) {
        sum = sum_from(sum, (const char *)items + i * extent, part);
        if (second) sum = sum_from(sum, (const char *)items + i * extent + second, part < 10 ? (second == 16 ? 10 : 4) : part);
    }
    observe("%s numbers %08x", what, (unsigned)(sum ^ sum >> 32));
}

/* ---- begin and end ---- */

static void begin(int *argc, char ***argv, int level) {
    int given = MPI_THREAD_SINGLE;
    if (level == MPI_THREAD_SINGLE) {
        MPI_Init(argc, argv);
    } else {
        MPI_Init_thread(argc, argv, level, &given);
    }
    MPI_Comm_rank(MPI_COMM_WORLD, &world_rank);
    MPI_Comm_size(MPI_COMM_WORLD, &world_size);
    for (int i = 0; i < COMMS; i++) comms[i] = MPI_COMM_NULL;
    comms[0] = MPI_COMM_WORLD, comms[1] = MPI_COMM_SELF;
    out = stdout;
    for (int i = 1; i < *argc; i++) {
        char name[4000];
        if (!strcmp((*argv)[i], "details")) {
            has_details = 1;
            continue;
        }
        snprintf(name, sizeof name, "%s/%d", (*argv)[i], world_rank);
        out = fopen(name, "w");
        if (out == NULL) MPI_Abort(MPI_COMM_WORLD, 9);
    }
    observe("threads %d", given == level);
}
static int finish(void) {
    MPI_Finalize();
    fprintf(out, "end\n");
    fclose(out);
    return 0;
}

