/* What the process, its progress and its requests are to the other files of the library; a program sees none of it.
 * Errors, types and communicators have headers of their own. Each section says in which file its functions stand. */
#ifndef KOMBAZILY_INTERNAL_H
#define KOMBAZILY_INTERNAL_H

#include "engine.h"
#include "for_fortran.h"
#include "library_lock.h"
#include "mpi.h"

#include <stdbool.h>
#include <stddef.h>
#include <stdint.h>

struct communicator;
struct datatype;
struct watch;

/* ---- environment.c ---- */

enum phase { BEFORE_INIT, RUNNING, FINALIZED };

/* This process: its place in the job. */
struct process {
    _Atomic enum phase phase;
    int rank; /* in MPI_COMM_WORLD */
    int size;
    int incarnation;
    uint64_t job;
    uint32_t frame; /* the most bytes of data of a frame, of all engines of the job */
    bool is_apart;  /* the job is over several hosts: its ranks aren't all at one address */
    long patience;  /* milliseconds; 0: there is no time after which a rank gives up */
    int thread_level;
    _Atomic bool is_threaded; /* several threads may speak MPI at the same time */
    bool checks;              /* what is left undone at the end is told */
    bool sends_wait; /* each standard or ready send is at its end once a receive has its message, as synchronous ones */
    const char *call;   /* the call of MPI that the program made last */
    const void *caller; /* where in the program the last call stands that notes it */
    uint64_t calls;     /* so many noted it */
};
extern struct process process;

/* To stand first in each function of MPI: notes where it was called (where Fortran called it), and until it returns no
 * other thread is in one. */
#define NOTE_CALLER()                                                                                                  \
    __attribute__((cleanup(leave_call), unused)) const bool has_lock = enter_call(__builtin_return_address(0))
static inline bool enter_call(const void *caller) {
    const bool is_threaded = process.is_threaded;
    if (is_threaded) lock_library();
    process.caller = fortran_caller == NULL ? caller : fortran_caller;
    process.calls++;
    return is_threaded;
}
static inline void leave_call(const bool *has_lock) {
    if (*has_lock) unlock_library();
}

/* The statuses of a rank whose place is told wrongly, of one whose socket fails, and of one that gave up, as of every
 * program here. */
enum { STATUS_PLACE = 2, STATUS_SOCKET, STATUS_PATIENCE };

/* The first rank of MPI_COMM_WORLD that has the own address, so runs on the same machine; whether one does. */
int first_neighbour(void);
bool is_neighbour(int rank);

/* The rank that the environment tells, before MPI_Init; -1 where it tells none. (start.c) */
int rank_in_environment(void);

/* Ends this process with this status, and so the job: the launcher ends the others. */
_Noreturn void end_job(int status);

/* ---- progress.c ---- */

/* The lowest rank of another host from which nothing has ever come, though something was sent to it long ago, while
 * this rank waits; -1 where there is none. */
int never_heard(void);

/* Asks the engine of the world that the call's communicator or request is of (worlds.h), once it is free: see
 * matched_receives.c. Data may be NULL where there are none. */
void call_engine(const struct engine_call *call, const void *data, size_t len, struct engine_answer *answer);
/* The same, whether it is free or not: then most calls are refused with 6. */
void ask_engine(const struct engine_call *call, const void *data, size_t len, struct engine_answer *answer);
/* Copies data out that an answer brought: as kombazily_take, which nothing else calls. */
size_t take_from_engine(uint64_t first, uint8_t *into, size_t len);
/* The same two of the engine of plans, which is never blocked: for plans, and whatever else goes beside the program. */
void ask_plans(const struct engine_call *call, const void *data, size_t len, struct engine_answer *answer);
size_t take_from_plans(uint8_t *into, size_t len);
/* The answer of a call that was BLOCKED, once it is there: for collectives, and receives of matched messages. An answer
 * of another kind is one already. */
void await_finish(struct engine_answer *answer);
bool is_engine_in_collective(void);

/* Takes in what has come and sends what is to go out; doesn't wait. */
void progress(void);
/* Sends what is to go out. To be called behind each call to the engine that begins something. */
void progress_out(void);
/* Waits a little for something to come, and takes it in: for loops that wait, behind progress_begin_wait. */
void progress_wait(void);
/* From now on counts the time after which a rank gives up. */
void progress_begin_wait(void);
/* Waits until all that was sent is acknowledged. */
void progress_until_idle(void);
/* The same, but not for long: behind the barrier with which all end. */
void progress_last_words(void);
/* From now on all is sent several times: before that barrier, since a rank behind it can't be asked again. */
void progress_say_often(void);
/* At the start of the process, once its place is known. */
void progress_open(void);

/* ---- requests.c ---- */

struct line;
struct request;

/* What is done with the requests of one kind of operation: each kind has such a table, and calls that end requests know
 * nothing else of it. A function may be NULL where it says so. */
struct request_kind {
    /* Goes on as far as it can, and doesn't wait: the engine is free. At the end of the operation it sets `is_ended`,
     * `number` and `end`. Called while the request is active and isn't at its end. NULL: the end comes by itself. */
    void (*go_on)(struct request *request);
    /* Begins an inactive request (3.9): 0, or the class of an error, of which it has told. `comm`, `state` and
     * `is_persistent` stay as they are; `age` and `caller` are those of now. NULL: none of this kind is persistent. */
    int (*start)(const char *call, struct request *request);
    /* MPI_Cancel, also behind its end (3.8.4): as `start`. NULL: it goes on as if nothing was said. */
    int (*cancel)(const char *call, struct request *request);
    /* Before the program is told of its end: 0, or an error code of a function of the program's, which may have changed
     * `end` (12.2). NULL: nothing is asked. */
    int (*query)(struct request *request);
    /* At MPI_Finalize, before its end: nothing that it began in the engine may wait any longer. NULL: nothing does. */
    void (*abandon)(struct request *request);
    /* Gives back what it holds, once: 0, or an error code as of `query`. NULL: nothing is held. */
    int (*forget)(struct request *request);
    /* What a rank waits for: `rank 1 to receive 40 bytes with tag 5 in MPI_COMM_WORLD`. */
    void (*say_wait)(struct line *line, struct request *request);
    /* What no call ended: `send: 40 bytes to rank 1 with tag 5 in MPI_COMM_WORLD`. */
    void (*say_left)(struct line *line, struct request *request);
};
/* Sends, receives, receives of messages that were taken out: see kinds.c. */
extern const struct request_kind send_kind, receive_kind, matched_kind;

/* Numbers of the engine that C tells apart (docs/NUMBERS.md). */
enum {
    NUMBER_COUNT = 1,
    NUMBER_TYPE,
    NUMBER_COMM = 4,
    NUMBER_TRUNCATED = 10,
    NUMBER_MISMATCH = 12,
    NUMBER_LIMIT,
    NUMBER_NO_MEMORY
};

/* The longest cause of an error, in bytes. */
enum { LONGEST_CAUSE = 400 };

/* An operation that was begun. What all kinds have stands first, then what sends and receives have. */
struct request {
    const struct request_kind *kind;
    void *state;        /* what else its kind keeps */
    bool is_persistent; /* at its end it becomes inactive, and its handle stays (3.9) */
    bool is_inactive;   /* calls that end requests take it as a null one (3.7.3) */
    bool is_ended;      /* it is at its end: `number` and `end` tell how */
    bool is_settled;    /* the program's functions know of it, and what it held is given back */
    bool is_freed;      /* the program freed it while it was on its way */
    uint32_t number;    /* 0, or why it failed */
    int code;           /* of an end that is told: 0, or the error code of it */
    MPI_Status end;
    uint64_t age;              /* greater the later it was begun */
    struct communicator *comm; /* whose error handler is told; held by a request that has a handle */
    const void *caller;        /* where in the program it was begun */
    struct request *next;      /* among those that the program let go */
    struct request *moving;    /* among those that go on in each progress */

    struct engine_request own; /* what the engine knows it by */
    struct datatype *type;     /* of what is received, and where it goes */
    void *buf;
    size_t room;         /* so many bytes of data it may be, or are sent */
    uint64_t elements;   /* of a message that is of another type than its receive: how many it has */
    const char *element; /* the name of the basic type that is received */
    int peer, tag;       /* as the program named them */
    bool tells;          /* of a send that waits for its receive (unasked.h): its end tells what was received */
    bool is_crowded;     /* of a standard one that waits since too much waits before it */
    int target;          /* whose rank in MPI_COMM_WORLD this is, and what had been sent to it */
    uint64_t mark;
    struct request *other;  /* the send that ends together with this receive, or NULL */
    struct request *behind; /* of a matched message: the next one to be received */
    struct watch *watch;    /* of its buffers (watches.h), or NULL */
};

/* Whether a request is at its end now. What it received then is where it belongs. */
bool is_at_end(struct request *request);
/* Notes that it is, by what the engine answered. */
void end_request(struct request *request, const struct engine_answer *answer);
/* Waits until it is: 0, or the number of its failure. */
uint32_t await_request(struct request *request);
/* From now on each progress goes on with it, until its end, whatever the program waits for. It has a handle. */
void keep_moving(struct request *request);
void move_requests(void);
/* Tells the error handler why a request failed, whose state is there. */
int raise_end(const char *call, const struct request *request);
/* The same of an error code of a function of the program's; 0 is none. */
int raise_code(const char *call, int code);

/* A request with a handle, for an operation that begins now; MPI_REQUEST_NULL where there is no memory. */
MPI_Request open_request(void);
/* For the `age` of an operation that begins now: greater than all before. */
uint64_t next_age(void);
/* The request of a handle, or NULL; and the check: 0 and NULL of MPI_REQUEST_NULL, an error of what is no request. */
struct request *request_of(MPI_Request handle);
int check_request(const char *call, const MPI_Request *handle, struct request **found);
/* The requests that have handles: how many places there are, and what is at one of them, or NULL. */
int request_places(void);
struct request *request_at(int place);
/* The place of the request that has this handle. */
uint32_t place_of_request(MPI_Request handle);
/* The same, or NULL of a request that is inactive, too. */
struct request *active_of(MPI_Request handle);
/* Tells the functions of the program's of its end: its code. `end` has all that is known of it then. Where the code is
 * that of an error, `cause` says why, in at most LONGEST_CAUSE bytes. */
int tell_end(struct request *request, char *cause);
/* Ends a request: its handle is a null one behind it, or stays, and the request is inactive (3.9). */
void close_request(MPI_Request *handle);
/* Lets an operation go on of which nobody will ask: false where there is no memory to know it by. */
bool let_go(const struct request *request);

/* Ends those that are at their ends of the requests that the program let go. */
void settle_freed(void);
bool has_freed(void);
/* The first of them of which this is so, or NULL; and ends it: as `forget` of its kind. */
struct request *find_freed(bool (*is_it)(const struct request *request, const void *what), const void *what);
int end_freed(struct request *request);
/* Abandons all that aren't at their ends; gives all requests back that are left. */
void abandon_requests(void);
void close_requests(void);
/* Of probes.c: the messages that were taken out; how many are left. */
void close_messages(void);
uint32_t count_messages(void);

/* ---- matched_receives.c ---- */

/* Begins to receive a message behind those that were begun before; the request is at its end at once, or stays where it
 * is until then. */
void begin_matched(struct request *request);
/* Goes on with those that were begun: whether the engine is free, since all are at their ends, and it is in no
 * collective. */
bool is_engine_free(void);
/* Waits until it is. */
void free_engine(void);

/* What a probe in a communicator tells, or an operation that ended. */
MPI_Status status_of(const struct communicator *comm, const struct engine_answer *answer);
/* The status of null requests (3.7.3); and to fill one with it, if one is wanted. */
MPI_Status empty_status(void);
void put_empty(MPI_Status *status);
/* Fills a status, if one is wanted. */
void put_status(MPI_Status *status, const MPI_Status *of);

/* ---- point_to_point.c ---- */

/* A send or a receive, for calls that are made of several: nothing is checked but by the engine. 0, or the number of a
 * refusal. What was begun must be ended by await_request. */
uint32_t begin_send(struct request *request, struct communicator *comm, bool is_synchronous, const void *buf, int count,
                    const struct datatype *type, int target, int tag);
uint32_t begin_receive(struct request *request, struct communicator *comm, void *buf, int count, struct datatype *type,
                       int source, int tag);

/* ---- persistent.c ---- */

/* Those of the tables of sends and receives; `state` is NULL, or the transfer that such a request begins. */
int start_again(const char *call, struct request *request);
int forget_again(struct request *request);
#endif
