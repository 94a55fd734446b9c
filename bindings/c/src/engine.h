/* One rank of a job, as C programs see it: what the static library `libc_exports.a` exports.
 *
 * A rank knows no socket, no clock, no thread and no file. C tells it calls, datagrams and the time, and gets answers,
 * data and datagrams. It never waits: what isn't ready is answered ENGINE_PENDING or ENGINE_BLOCKED, and C asks again
 * once it has carried datagrams and told the time. Behind this border it is decided, and proved, which message a
 * receive takes, order, the engine's collectives, communicators, resending, what is refused of what it is asked. On
 * this side stands what engine_plans.h, engine_grids.h and engine_types.h don't tell: the carrying out of plans, other
 * topologies, handles and contents of types, attributes. (MPI 3.1 is the standard.
 * What a program asks wrongly C tells, mostly, before it asks: checks.c.)
 *
 * What crosses is numbers, records of fixed size and slices of bytes. No record holds a pointer, and the rank keeps no
 * pointer to what is C's: a send's data are copied in by the call, and what came is copied out by `kombazily_take`.
 *
 * What C owes: it gives a handle to one call at a time, of whichever thread, where each call is behind the one before
 * it (the engine keeps nothing of a thread, and has its memory by malloc); a slice's bytes are there, and its pointer
 * isn't null, even where its length is 0; slices and records that are written to overlap nothing else that the call is
 * given. The numbers themselves may be anything. That these records are the engine's is told by engine_records.c.
 */
#ifndef KOMBAZILY_ENGINE_H
#define KOMBAZILY_ENGINE_H

#include <stdbool.h>
#include <stddef.h>
#include <stdint.h>

/* A rank, or nothing where all of it is zero. C makes it `{0}`, and neither looks inside nor copies it. */
struct engine_rank {
    void *at;
    bool is_held;
};

/* The greatest message limit, in bytes. */
enum { ENGINE_GREATEST_LIMIT = 0x7fffffff };

/* The least and the greatest frame limit, in bytes. */
enum { ENGINE_LEAST_FRAME = 1024, ENGINE_GREATEST_FRAME = 61440 };

/* Where the rank stands in its job. Job, size and both limits are the same at all ranks of a job. */
struct engine_place {
    uint64_t job; /* the job's number, which each datagram carries */
    uint64_t
        message_limit;    /* the most bytes of a send: 1,048,576 to 2,147,483,647; a collective's block has 16 fewer */
    uint16_t rank;        /* in `world`, below the size */
    uint16_t size;        /* 1 to 1,024 */
    uint16_t incarnation; /* 0 at first, one more with each restart of this rank */
    bool is_near;         /* one of many on one machine: what isn't acknowledged there is late, and hardly ever lost */
    uint32_t frame_limit; /* the most bytes of data of a frame: 1,024 to 61,440, a multiple of 8; one for all ranks */
    uint32_t room;        /* how many bytes that came the socket of a rank keeps: what is on its way to each is bounded
                             by that, and has a congestion window; 0: neither */
};

/* A request, or a message that a matching probe took out. */
struct engine_request {
    uint64_t key;
    uint64_t serial;
};

/* What is asked for. Behind each: the fields of the call that it reads. The others may hold anything. */
enum engine_call_kind {
    ENGINE_ISEND = 1, /* communicator, peer, tag, basic; data: the elements. A standard send. STARTED */
    ENGINE_ISSEND,    /* the same, synchronous: finished once a receive has its message. STARTED */
    ENGINE_IRECV,     /* communicator, peer, tag, basic, count. STARTED */
    ENGINE_TEST,      /* request: ends it if it is finished. DONE or PENDING */
    ENGINE_LOOK,      /* request: whether it is finished, and leaves it. FACT (1 or 0); also while a call is blocked */
    ENGINE_CANCEL,    /* request: of a receive. ACCEPTED; its test then tells whether it was in time */
    ENGINE_IPROBE,    /* communicator, peer, tag. PROBED or NOTHING */
    ENGINE_IMPROBE,   /* communicator, peer, tag: takes the message out. MATCHED or NOTHING */
    ENGINE_MRECV,     /* request (the message), basic, count. DONE or BLOCKED */
    ENGINE_FINISH,    /* the answer of the call that was BLOCKED, once: DONE or LEFT, or PENDING */
    ENGINE_BARRIER,   /* communicator. This and all further ones: LEFT or BLOCKED */
    ENGINE_BCAST,     /* communicator, peer (root), basic, count, has_data. Data at all but the root: the root's */
    ENGINE_GATHER,    /* communicator, peer (root), basic; data: the own block. Data at the root: all, in rank order */
    ENGINE_SCATTER,   /* communicator, peer (root), basic, count (of a block), has_data. Data: the own block */
    ENGINE_REDUCE,    /* communicator, peer (root), basic, operation; data. Data at the root */
    ENGINE_ALLREDUCE, /* communicator, basic, operation; data. Data at each member */
    ENGINE_DUP,       /* communicator. LEFT with the new communicator */
    ENGINE_SPLIT,     /* communicator, colour, order. LEFT with the new communicator, or ENGINE_NO_COMMUNICATOR */
    ENGINE_RANK,      /* communicator: the own rank in it. FACT */
    ENGINE_SIZE,      /* communicator: how many members. FACT */
    ENGINE_MEMBERS,   /* communicator: their ranks in `world`, in order. FACT: how many; data: ENGINE_UINT16 */
    ENGINE_COMPARE    /* communicator, other. FACT: ENGINE_IDENT .. ENGINE_UNEQUAL */
};

/* Basic types: of a message's elements. Two match where they are the same (3.3.1). */
enum engine_basic {
    ENGINE_INT8 = 1,
    ENGINE_INT16,
    ENGINE_INT32,
    ENGINE_INT64,
    ENGINE_UINT8,
    ENGINE_UINT16,
    ENGINE_UINT32,
    ENGINE_UINT64,
    ENGINE_BYTE,
    ENGINE_FLOAT32, /* as IEEE 754 has them */
    ENGINE_FLOAT64
};

/* Operations of reductions (5.9.2). Each is the left fold in the order of the members' ranks. */
enum engine_operation {
    ENGINE_MAX = 1,
    ENGINE_MIN,
    ENGINE_SUM,
    ENGINE_PROD,
    ENGINE_LAND,
    ENGINE_LOR,
    ENGINE_LXOR,
    ENGINE_BAND,
    ENGINE_BOR,
    ENGINE_BXOR
};

/* Communicators are named by their places among those that the rank holds. */
#define ENGINE_WORLD UINT32_C(0)
#define ENGINE_SELF UINT32_C(1)
#define ENGINE_NO_COMMUNICATOR UINT32_MAX /* MPI_COMM_NULL */

/* Peers and tags that are none. Every other negative one is a fault: 5 (ERR_RANK), 7 (ERR_ROOT) or 3 (ERR_TAG). */
enum { ENGINE_ANY = -1, ENGINE_NULL = -2 };

/* The colour of MPI_UNDEFINED; every other negative colour is a fault of C's, which is to be found before. */
enum { ENGINE_NO_COLOUR = -1 };

/* A call. */
struct engine_call {
    uint32_t kind;         /* an engine_call_kind */
    uint32_t communicator; /* its place */
    int32_t peer;          /* a target, a source (or ENGINE_ANY) or a root, in the communicator; or ENGINE_NULL */
    int32_t tag;           /* 0 to 2,147,483,647; a receive or a probe may say ENGINE_ANY */
    uint32_t basic;        /* an engine_basic */
    uint32_t operation;    /* an engine_operation */
    uint64_t count;        /* elements: of a receive's room, of a block */
    struct engine_request request;
    uint32_t other;    /* the communicator that is compared with */
    int32_t colour;    /* 0 and more, or ENGINE_NO_COLOUR */
    int32_t order;     /* the key of a split */
    uint32_t has_data; /* BCAST, SCATTER: 1 where the slice has the elements (at the root), 0 where it has none */
};

/* What a call answers. Behind each: the fields of the answer that it sets. The others are 0. */
enum engine_answer_kind {
    ENGINE_REFUSED,  /* number: why. Nothing changed */
    ENGINE_STARTED,  /* request */
    ENGINE_DONE,     /* outcome, number; of a receive: source, tag, count, basic, bytes */
    ENGINE_PENDING,  /* not finished, nothing changed */
    ENGINE_ACCEPTED, /* the cancel was taken */
    ENGINE_BLOCKED,  /* the answer comes by FINISH; until then every call but FINISH and LOOK is refused with 6 */
    ENGINE_LEFT,     /* a collective ended: number; basic, count, bytes where it gives data; a new communicator */
    ENGINE_FACT,     /* fact */
    ENGINE_PROBED,   /* source, tag, count, basic */
    ENGINE_MATCHED,  /* request, source, tag, count, basic. Of the null process: key and serial are UINT64_MAX */
    ENGINE_NOTHING   /* a probe found nothing */
};

/* How an operation ended. */
enum engine_outcome {
    ENGINE_SENT = 1,  /* a send: its data are on their way */
    ENGINE_RECEIVED,  /* a receive: `bytes` bytes are there to be taken, `count` elements of type `basic` */
    ENGINE_FAILED,    /* a receive whose message is used up, without data: number 2 (another type) or 10 (too long) */
    ENGINE_REPLACED,  /* the other rank was started anew: number 11 */
    ENGINE_CANCELLED, /* a receive was cancelled in time */
    ENGINE_EMPTY      /* the null request */
};

/* How two communicators compare (6.4.1): the fact of ENGINE_COMPARE. */
enum engine_comparison { ENGINE_IDENT, ENGINE_CONGRUENT, ENGINE_SIMILAR, ENGINE_UNEQUAL };

/* An answer. */
struct engine_answer {
    uint32_t kind;    /* an engine_answer_kind */
    uint32_t number;  /* 0, or why it was refused or ended so: docs/NUMBERS.md */
    uint32_t outcome; /* an engine_outcome */
    uint32_t basic;   /* of the elements; 0 where it isn't known */
    struct engine_request request;
    int32_t source;        /* in the communicator; ENGINE_NULL of the null process */
    int32_t tag;           /* ENGINE_ANY of the null process */
    uint64_t count;        /* elements of the message */
    uint64_t bytes;        /* so many bytes of data are there for kombazily_take */
    uint64_t fact;         /* a number, or a comparison */
    uint32_t communicator; /* the place of a new one, or ENGINE_NO_COMMUNICATOR */
};

/* Numbers beside those of docs/NUMBERS.md (1 to 14: calls, 21 to 41: datagrams and clocks). */
enum engine_number {
    ENGINE_NOTHING_HELD = 81, /* the handle holds no rank */
    ENGINE_HELD_ALREADY = 82, /* kombazily_new: the handle holds a rank, which stays */
    ENGINE_NO_SUCH_CALL = 83, /* the kind names no call */
    ENGINE_OTHER_LIMIT = 84   /* kombazily_new: a message limit or a frame limit that isn't served */
};

/* What goes out: datagrams to one rank, one behind the other in the slice, all of one length but for the last, which
 * may be shorter: as UDP_SEGMENT takes them. */
struct engine_outgoing {
    uint64_t kept_until; /* when a kept acknowledgement is to go, on the clock of kombazily_tick; 0 if none is kept */
    uint32_t each;       /* the length of each datagram but the last */
    uint32_t count;      /* how many */
    uint16_t target;     /* the rank in `world` that they go to */
};

/* The room that one datagram may need: a slice of kombazily_next has as much at least. */
enum { ENGINE_LONGEST_DATAGRAM = 61648 };

/* Makes the rank of this place, at its start: `world` and `self` are there, nothing is pending, its clock is at 0.
 * 0, or 5 (the rank isn't below the size), 13 (above 1,024 ranks), 14 (no memory), 82, 84. A refusal leaves the handle
 * as it was. */
uint32_t kombazily_new(struct engine_rank *rank, const struct engine_place *place);

/* Gives its memory back. The handle holds nothing then; so it did where it held nothing. */
void kombazily_free(struct engine_rank *rank);

/* Answers a call. The data are the elements of sends and collectives, in the machine's own byte order, whole elements
 * of the call's basic type; calls that name no data read none. Where the numbers name no call, the answer is refused:
 * 81 (nothing held), 83 (kind), 2 (basic), 1 (the last element isn't whole, or a block has 2^32 elements or more), 9
 * (operation), in this order; else it is the engine's answer. */
void kombazily_call(struct engine_rank *rank, const struct engine_call *call, const uint8_t *data, size_t length,
                    struct engine_answer *answer);

/* Copies data out that the last answer with `bytes` told of, in the machine's byte order: from the element `first` on,
 * as many whole elements as are there and fit. How many bytes it put; what lies behind them is as it was. The data stay
 * until an answer brings others, and may be taken in parts and as often as one likes. */
size_t kombazily_take(struct engine_rank *rank, uint64_t first, uint8_t *into, size_t length);

/* Takes in a datagram; its bytes may be anything. 0, or the number of the refusal: then nothing changed, but that 29
 * (it was for a former incarnation of this rank) has a RESET go out. */
uint32_t kombazily_datagram(struct engine_rank *rank, const uint8_t *bytes, size_t length);

/* The clock says `now`, in nanoseconds; its start is C's choice. The engine is told whole milliseconds; round trips are
 * measured by it. So C tells the time before a call that may send something and before datagrams that came, and each
 * few milliseconds as long as the rank isn't idle. Where frames may go again, what isn't acknowledged within the time
 * of RFC 6298 goes out again (20 ms to a second, by the round trips to its rank); else nothing does. An acknowledgement
 * that was kept back for 1 ms goes. 0, or 41 (an earlier call said more), 14, 81. */
uint32_t kombazily_tick(struct engine_rank *rank, uint64_t now, bool may_repeat);

/* How long frames take to a rank and back, in microseconds: the smoothed time and its variation (RFC 6298). At first
 * both are 0. */
struct engine_estimate {
    uint64_t smoothed, variation;
};

/* Several engines may have to do with one process: what one learned of it the others may learn. Frames to the rank
 * `peer`, or to all, take as long as this says; and puts what was learned of it, where something was. */
void kombazily_learn(struct engine_rank *rank, uint16_t peer, const struct engine_estimate *estimate);
void kombazily_learn_all(struct engine_rank *rank, const struct engine_estimate *estimate);
void kombazily_learned(struct engine_rank *rank, uint16_t peer, struct engine_estimate *estimate);

/* The same of ranks on one machine, which are late where its processors are busy, and so all of them are: what an
 * engine learned takes the place of what was known at once where it is higher, else 10 ms after the last time. At first
 * those that share a processor are thought to have their turns behind one another. Times are in nanoseconds. */
struct engine_lateness {
    struct engine_estimate estimate;
    uint64_t since;
};
void kombazily_begin_lateness(uint32_t ranks, uint32_t processors, uint64_t now, struct engine_lateness *late);
void kombazily_note_lateness(struct engine_lateness *late, const struct engine_estimate *learned, uint64_t now);

/* How many of so many engines of a process are told that frames may go again, once so many milliseconds have passed
 * since some were told last: all of up to 64 each millisecond, and all of any number within 20. */
uint64_t kombazily_told_at_once(uint64_t count, uint64_t passed);

/* Hands out what is to be sent next: at most `most` datagrams (1 where the kernel doesn't cut them apart), as many as
 * fit. How many bytes it put; 0 where nothing is to go, or where `length` is too short for the next datagram, which
 * then stays. To be called until it answers 0, behind each datagram, each call and each tick. Short acknowledgements
 * are kept back for a millisecond of that clock, since a later one may stand for them; with `kept_too` none is: before
 * C sleeps, and before it ends. A datagram may be lost, late or repeated: what has to come goes again. */
size_t kombazily_next(struct engine_rank *rank, uint32_t most, bool kept_too, struct engine_outgoing *out,
                      uint8_t *into, size_t length);

/* Whether nothing waits and all that was sent is acknowledged (what is kept back or wasn't handed out yet doesn't
 * count). A handle that holds nothing is idle. */
bool kombazily_is_idle(struct engine_rank *rank);

#endif
