/* What a rank and the explorer tell each other: records of fixed size over a local socket, and rows behind them. A rank
 * asks, and waits for the answer; nothing else crosses. The engine's own records go through unchanged. */
#ifndef KOMBAZILY_EXPLORER_RECORDS_H
#define KOMBAZILY_EXPLORER_RECORDS_H

#include "engine.h"

enum { EXPLORER_FRAMES = 24, EXPLORER_NAME = 32 };

/* What a rank asks of the explorer. */
enum explorer_ask_kind {
    ASK_CALL = 1, /* call, bytes: the engine's call. A collective, or the receive of a message that was taken out, is
                     answered once it is at its end; a LOOK says whether a request is, and what waits may go on by it */
    ASK_POST,     /* call, bytes: a send or a receive begins, as call.request; is_ready: a ready send (MPI 3.1, 3.4). It
                     is answered by nothing */
    ASK_WAIT,     /* call.request: answered once it is at its end, as its test is */
    ASK_WAITALL,  /* entries: answered once all are at their ends, by their answers and their data in a row */
    ASK_WAITANY,  /* entries: fact 1 and the place of one, once one is at its end */
    ASK_WAITSOME, /* entries: how many, and their places behind the answer, once one is at its end */
    ASK_TEST, /* entries: fact 1 if all are at their ends, else 0. What is told to be at its end is not ended by it */
    ASK_TESTANY,  /* entries: fact 1 and the place of one, or 0 */
    ASK_TESTSOME, /* entries: how many, and their places behind the answer, or 0 */
    ASK_PROBE,    /* call (IPROBE or IMPROBE); with is_waiting it is answered once something is there */
    ASK_PAUSE,    /* answered once a request is at its end of which a LOOK said that it isn't */
    ASK_ERROR,    /* bytes: an error that ends the program; call.order: its class. Fact 1: the program is to go on */
    ASK_RETURNED, /* bytes: an error that a call returned; call.order: its class */
    ASK_ABORT,    /* call.order: the code */
    ASK_START,    /* in MPI_Init; call.order: EXPLORER_VERSION. Answered by nothing */
    ASK_ENTER, /* plan; call: a collective that goes by sends and receives begins. kind: a plan_kind, peer: the root or
                  EXPLORER_NO_ROOT, operation: that of a reduction, of which EXPLORER_OWN_OPERATION is a function of
                  the program, count: how many blocks the member hands in, tag: 0, or the number of a persistent one in
                  its communicator; is_waiting: it waits for its end. bytes: those blocks and those that it gets, each
                  an explorer_block. Answered by nothing */
    ASK_KEPT,  /* entries: sends of MPI_Bsend, in their order. The fact: of so many of the first ones this rank knows
                  that they were received: no run may have them in the buffer still */
    ASK_PLACE, /* told where a rank was asked for its place, which waits on: nothing but frames stands behind it */
    ASK_MADE,  /* call.order: a made_kind, call.peer: its number among those that live. Answered by nothing */
    ASK_FREED, /* call.communicator: freed by the program. Answered by nothing */
    ASK_UNSUPPORTED, /* bytes: the error of a call that can't be explored, whether it would be returned or not */
    ASK_FINALIZE, /* entries: the requests that are left; bytes: an explorer_left, then the places of the communicators
                     that are left, the numbers of the types, and those of the persistent requests. Answered once all
                     ranks are there */
    ASK_MISUSE    /* bytes: an explorer_begun. The buffer of that operation is misused, as call.order says, which is a
                     misuse: seen in the call that asks. It is no call by itself */
};

/* How a program uses a buffer that an operation has (MPI 3.1, 3.7.2, 3.10, 5.12). */
enum misuse {
    MISUSE_OVERLAP = 1, /* the buffer of the operation that begins now shares a byte with it, and data come into one */
    MISUSE_WITHIN,      /* so do two buffers of this call */
    MISUSE_CHANGED,     /* what is sent isn't as it was, when the operation completes */
    MISUSE_WRITTEN,     /* nor is the memory where data come, before they do */
    MISUSE_GONE         /* it isn't there */
};

/* An operation that was begun: in which call, and where that stands, as in an ask. */
struct explorer_begun {
    char name[EXPLORER_NAME];
    uint64_t frame_count;
    uint64_t frames[EXPLORER_FRAMES];
};

/* A request of a list. A list with one that is EXPLORER_OPEN is answered by the fact EXPLORER_AGAIN, too: as a pause.
 */
struct explorer_entry {
    uint64_t key;   /* of its engine_request, or one of the following */
    uint64_t other; /* the send of a send and receive in one, or EXPLORER_ENDED. Of what is left at MPI_Finalize: the
                       plan of a collective */
};
#define EXPLORER_NULL UINT64_MAX        /* the null request */
#define EXPLORER_ENDED (UINT64_MAX - 1) /* one of which the rank knows that it is at its end */
#define EXPLORER_OPEN (UINT64_MAX - 2)  /* one that the rank makes of others, and that isn't at its end */
#define EXPLORER_MADE (UINT64_MAX - 3)  /* one that it made so, and that is; a look may say no of it */
enum { EXPLORER_AGAIN = 2 };

/* These records as a program and its explorer know them. */
enum { EXPLORER_VERSION = 5 };

/* A block of a collective: its bytes, and the type of the engine that they are of. */
struct explorer_block {
    uint64_t bytes;
    uint64_t basic;
};
enum { EXPLORER_NO_ROOT = -1, EXPLORER_OWN_OPERATION = 1000 };

/* What has a place where it was made, and a number of its own kind as long as it lives. */
enum made_kind { MADE_TYPE, MADE_PERSISTENT, MADE_KINDS };

/* What a program leaves over at MPI_Finalize, beside requests. */
struct explorer_left {
    uint32_t communicators; /* so many places stand behind it, */
    uint32_t types;         /* and numbers of types that were made and never freed, */
    uint32_t persistent;    /* and of requests that may be started again and were never freed */
    uint32_t messages;      /* taken out and never received */
};

/* An ask. Behind it stand `frame_count` addresses of 64 bits, then `count` entries, then `length` bytes. */
struct explorer_ask {
    uint32_t kind; /* an explorer_ask_kind */
    uint32_t count;
    uint32_t is_waiting;
    uint32_t frame_count; /* where it was called from: addresses within the program's file, innermost first */
    uint32_t plan;        /* of a send or a receive of a collective's: the number by which ASK_ENTER told it; else 0 */
    uint32_t calls;       /* so many calls of MPI its rank has made, with this one */
    uint32_t is_ready;
    uint32_t unused;
    struct engine_call call;
    uint64_t length;
    char name[EXPLORER_NAME]; /* the call of MPI */
};

/* The answer. Behind it stand `count` places of 32 bits, then answer.bytes bytes of data. */
struct explorer_answer {
    struct engine_answer answer;
    uint32_t count;
    uint32_t place;
    uint32_t wants_place; /* it is no answer: the rank tells its place, and waits on */
    uint32_t unused;
};

/* What a process that is copied for each run is handed with the two descriptors of a run. */
struct explorer_run {
    uint32_t tells_places;
    uint32_t leaves_early;
};
#endif
