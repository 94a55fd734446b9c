/* What the files of the steps share: see steps.h. */
#ifndef EXPLORER_STATE_H
#define EXPLORER_STATE_H

#include "steps.h"

/* ---- a rank ---- */

enum operation_state {
    OP_NONE,
    OP_POSTED, /* an engine knows it */
    OP_WILD,   /* a receive of any source, which no engine knows: it is named by a move */
    OP_HELD,   /* a receive behind such a one, which might take the same message */
    OP_CANCELLED,
    OP_FAILED,   /* the engine refused it, by `number` */
    OP_BUFFERED, /* a send that was buffered: at its end, whatever its engine does */
    OP_COPYING,  /* a copy of a communicator that isn't made yet, and one that is: `made` */
    OP_COPIED
};

/* What a rank has made, by its number among those of its kind: where. */
struct made_row {
    struct place *of;
    size_t count, room;
};

/* A send or a receive that a rank began and didn't end yet. */
struct operation {
    enum operation_state state;
    bool is_send;
    bool is_looked_at; /* a LOOK said that it isn't at its end */
    bool waits;        /* a send that is at its end once it is received, unless it is buffered by a move */
    uint32_t op;       /* as moves name it */
    uint32_t at;       /* its place among all that the rank began */
    uint32_t number;
    uint32_t sent_at; /* its place among all that was sent, or NOT_SENT */
    uint32_t plan;    /* of a collective: which one of the rank's; 0: it is the program's own */
    uint32_t made;
    struct engine_request own;
    struct engine_call call;
    struct place place;
};

/* A communicator of a rank. */
struct members {
    bool is_made;
    uint64_t name; /* the same at all its members, and no other communicator's */
    int size, rank;
    uint16_t *of;
    uint32_t entered; /* so many collectives */
    bool is_freed;
    struct place made_at, freed_at;
};

/* A receive that was posted, or a probe that saw something: whose message it named. */
struct taking {
    uint32_t at;
    uint64_t name; /* of its communicator */
    int source;    /* in `world` */
    int32_t tag;
    bool is_wild, is_look;
    int message; /* its place among all that was sent, or -1 */
    int posted;  /* when it was begun */
    struct place place;
};

/* A message that a probe saw: the probe's own source and tag, and the message's. */
struct pin {
    uint32_t communicator;
    int32_t asked, pattern, source, tag;
};

/* A collective of a rank that goes by sends and receives. */
struct plan {
    uint32_t communicator;
    uint64_t name;  /* of its communicator, or of a series */
    uint32_t entry; /* the how-many-th collective of this name it is */
    bool waits;     /* its rank waits for its end in the call itself */
    struct place place;
};

/* A persistent collective, which a rank begins again and again: members begin several in any order (MPI 4.0, 6.13), so
 * each is counted by itself. */
struct series {
    uint64_t name;
    uint32_t entered;
};

/* A send that was buffered and that its rank has ended: its engine has it until it is received. */
struct rest {
    bool is_of_plan;
    struct engine_request own;
};

enum rank_state { RANK_RUNS, RANK_BLOCKED, RANK_ENDED };

struct rank {
    enum rank_state state;
    bool is_answered;
    bool is_in_engine;  /* in a call that the engine answers by FINISH */
    bool is_held;       /* a collective that isn't entered yet */
    bool is_cancelling; /* in MPI_Cancel, which is answered where nobody else goes on */
    bool is_finalized, has_failed, has_cancelled;
    /* The ask, and what stands behind it. */
    struct explorer_ask ask;
    struct place place;
    struct explorer_entry *entries;
    uint8_t *bytes;
    uint32_t ask_op, ask_at;
    uint32_t entry; /* the how-many-th collective of its communicator it is */
    uint32_t asks, ops, sends, begun;
    int noes; /* in a row */
    struct operation *operations;
    int operation_count, operation_room;
    int *late, late_count, late_room; /* receives that no engine knows, in the order in which they were begun */
    struct members *members;
    int members_count;
    struct pin *pins;
    int pin_count;
    struct taking *takings;
    int taking_count, taking_room;
    struct plan *plans; /* by their numbers, less one */
    int plan_count;
    struct made_row made[MADE_KINDS];
    uint32_t calls; /* so many calls of MPI it has made */
    struct series *series;
    int series_count;
    struct rest *rests; /* what the engines have of sends that were buffered and ended */
    int rest_count, rest_room, rest_bound;
    /* The answer, and what stands behind it. */
    struct explorer_answer answer;
    uint32_t *places;
    uint8_t *data;
    size_t data_room;
};

/* ---- all ranks ---- */

/* What happened at a rank, in its own order. */
enum event_kind {
    EVENT_SEND,
    EVENT_POST,
    EVENT_END,
    EVENT_SEND_END,
    EVENT_ENTER, /* a collective that nobody leaves before all are there, and the leaving of it */
    EVENT_LEAVE,
    EVENT_GIVE, /* one in which data go from the root or to it: it is entered with data, and left with data */
    EVENT_TAKE
};
struct event {
    enum event_kind kind;
    int rank;
    uint32_t id; /* a message's place; a receive's place among what its rank began; which collective it is */
    uint64_t name;
};

struct sent {
    uint64_t name;
    int source, target;
    int32_t tag;
    bool is_ready; /* by a ready send */
    struct place place;
};

/* What a member enters a collective with. */
enum { ENTERS_PLAN = 1000 };
struct entering {
    int rank, member;          /* in `world`, and in the communicator */
    uint32_t kind;             /* an engine_call_kind, or ENTERS_PLAN and a plan_kind */
    int32_t root;              /* or EXPLORER_NO_ROOT */
    uint32_t operation;        /* or 0 */
    uint32_t persistent;       /* or 0 */
    struct explorer_block row; /* of a collective of the engine's, where members have alike ones */
    uint32_t given, got;       /* of a plan: blocks that the member hands in, and that it gets behind them */
    struct explorer_block *blocks;
    struct place place;
};

/* A collective that some members have entered. */
struct meeting {
    uint64_t name, communicator; /* that of a series, and of its communicator; else twice the latter */
    uint32_t index, entered, size;
    bool is_told;
    struct entering *of;
};

struct engines;
struct steps {
    struct steps_options options;
    struct engines *engines;
    struct engines *plan_engines; /* those of plans, from the first message on; else NULL */
    struct engines *answering;    /* those that answered a call last */
    uint64_t *plan_names;         /* communicators that have plans */
    int plan_name_count;
    struct rank *ranks;
    struct finding *findings;
    int finding_count;
    int cycle[MOST_RANKS], cycle_length; /* each waits for the next one, and the last one for the first */
    bool is_aborted, is_unexplored, has_mismatch, is_unsafe_told;
    bool has_ready, has_unsure_ready; /* some send was a ready one; of one it isn't known whether it may come early */
    bool has_withheld;                /* a look wasn't let say no, since others in front of it had */
    bool has_copies;                  /* some rank has asked for a copy that doesn't wait */
    bool has_long;                    /* a standard send was longer than is buffered */
    bool has_kept;  /* a rank stayed in a call that makes a communicator, since others weren't there */
    bool has_parts; /* not each part was a move of the requests that some of a list might end */
    uint64_t calls;
    int rounds_of_no;
    struct sent *sent;
    size_t sent_count, sent_room;
    struct event *events;
    size_t event_count, event_room;
    struct meeting *meetings;
    int meeting_count;
};

/* Memory, or the end of the explorer. */
void *room_for(void *old, size_t count, size_t each);
/* One more place in a row of things of this size. */
void *one_more(void *row, size_t count, size_t *room, size_t each);

/* ---- engines.c: the engines of all ranks ---- */

struct engines *engines_new(int size);
void engines_free(struct engines *all);
void engines_call(struct engines *all, int rank, const struct engine_call *call, const uint8_t *bytes, size_t length,
                  struct engine_answer *answer);
size_t engines_take(struct engines *all, int rank, uint8_t *into, size_t length);
/* What the messages of so many sources make possible at the fence: of a receive of any source, and of a probe. */
void engines_add_matches(struct engines *all, struct choices *choices, int rank, const uint32_t *ops,
                         const uint32_t *sources, size_t count);
void engines_add_sights(struct engines *all, struct choices *choices, int rank, uint32_t op,
                        const struct engine_call *probe, int sources);
/* All that was sent comes, and what is sent for it; all engines are quiet then. */
void engines_settle(struct engines *all);

/* A call that counts, and a question. */
void call_rank(struct steps *s, int rank, const struct engine_call *call, const uint8_t *bytes, size_t length,
               struct engine_answer *answer);
struct engine_answer ask_rank(struct steps *s, int rank, struct engine_call call);
/* The same of an engine of plans, or of one of the program. */
void call_engine(struct steps *s, bool is_plan, int rank, const struct engine_call *call, const uint8_t *bytes,
                 size_t length, struct engine_answer *answer);

/* ---- answers.c ---- */

void give(struct steps *s, int rank, const struct engine_answer *answer);
void give_fact(struct steps *s, int rank, uint64_t fact);
void give_places(struct steps *s, int rank, const uint32_t *places, uint32_t count);
/* The end of one request, and of all of a list. */
void give_end(struct steps *s, int rank, uint64_t key);
void give_all_ends(struct steps *s, int rank);

/* ---- members.c ---- */

void learn_members(struct steps *s, int rank, uint32_t place, uint64_t name);
struct members *members_of(struct steps *s, int rank, uint32_t place);
/* The rank in `world` of a member, or -1. */
int world_rank(struct steps *s, int rank, uint32_t place, int32_t member);
/* How many collectives of the communicator or series of this name a rank has entered. */
uint32_t entered_by(const struct rank *own, uint64_t name);
/* The name of a persistent collective of a communicator; and the series of this name of a rank, made where it is new.
 */
uint64_t series_name(const struct members *of, uint32_t persistent);
struct series *series_of(struct rank *own, uint64_t name);
uint64_t mixed(uint64_t a, uint64_t b);

/* ---- operations.c ---- */

struct operation *operation_of(struct steps *s, int rank, uint64_t key);
void begin_operation(struct steps *s, int rank, const struct explorer_ask *ask, const uint8_t *bytes);
void begin_cancel(struct steps *s, int rank);
/* Cancels where no rank runs: whether some rank asked for it. */
bool cancel_all(struct steps *s);
void end_operation(struct steps *s, int rank, struct operation *it, struct engine_answer *answer);
bool is_done(struct steps *s, int rank, uint64_t key);
bool is_entry_done(struct steps *s, int rank, const struct explorer_entry *entry);
/* Whether something is at its end of which a LOOK said that it isn't; it is told once. */
bool has_moved_on(struct steps *s, int rank);

/* ---- late.c: receives that no engine knows yet ---- */

bool do_tags_meet(int32_t a, int32_t b);
/* Whether a receive of this rank that waits would take this message; or one that was begun before this one. */
bool is_wanted(const struct steps *s, int rank, const struct engine_answer *message, uint32_t communicator);
bool is_wanted_before(const struct steps *s, int rank, const struct operation *it, const struct engine_answer *message);
/* A receive begins: whether it waits for a decision. Else it may be posted. */
bool begin_late(struct steps *s, int rank, int operation);
void remove_late(struct steps *s, int rank, int place);
/* The place of a receive of any source that waits, or -1. */
int late_place(const struct rank *own, uint32_t op);
/* What an engine says to a probe of this source. */
struct engine_answer found_by(struct steps *s, int rank, const struct engine_call *call, int32_t source);
/* Posts a receive of this source. */
bool post_receive(struct steps *s, int rank, int operation, int32_t source);
/* Posts those that need wait no longer: whether there was one. */
bool post_held(struct steps *s, int rank);

/* ---- collectives.c ---- */

bool is_collective(uint32_t kind);
void begin_collective(struct steps *s, int rank);
void enter_collective(struct steps *s, int rank);
void finish_collective(struct steps *s, int rank, const struct engine_answer *answer);
bool are_all_there(struct steps *s, int rank);

/* ---- meetings.c ---- */

/* A member enters a collective, whose blocks are taken over: the how-many-th of the communicator, or of its series, it
 * is. What differs from what others entered is told. */
uint32_t enter_meeting(struct steps *s, int rank, struct members *of, struct entering own);
/* Tells of collectives that some member never entered, and what differs at those that did. */
void tell_absent(struct steps *s);
void free_meetings(struct steps *s);

/* ---- plans.c ---- */

/* A plan's message as its engine is told of it: by ranks in `world`, apart from those of other communicators. */
struct engine_call plan_message(struct steps *s, int rank, const struct engine_call *call);
void begin_plan(struct steps *s, int rank);
/* Whether all members have entered the collective that goes by this plan, where one waits for it in the call. */
bool has_met(struct steps *s, int rank, uint64_t number);
/* The plan of this number, or NULL. */
const struct plan *plan_of(const struct rank *own, uint64_t number);

/* ---- copies.c ---- */

/* Makes the copies of communicators that all their members have asked for: whether there was one. */
bool make_copies(struct steps *s);
/* Whether a rank waits for a copy of this communicator, or of any. */
bool has_copies(const struct rank *own, uint32_t communicator, bool any);

/* ---- buffers.c ---- */

void answer_kept(struct steps *s, int rank);
/* Finds which message each receive of a rank took, in the order in which they were begun. */
void find_messages(struct steps *s, int rank);
/* Whether what happened at this place among all events was known to a rank before another place. */
bool is_known_before(const struct steps *s, size_t from, size_t before, int rank);

/* ---- made.c ---- */

void note_made(struct steps *s, int rank);
void note_freed(struct steps *s, int rank);
void free_made(struct rank *own);
/* Counts those of these numbers by where they were made, behind so many rows that are known: how many rows there are.
 */
struct made_left {
    enum made_kind kind;
    uint32_t count;
    const struct place *place;
};
uint32_t count_made(const struct rank *own, enum made_kind kind, const uint32_t *numbers, uint32_t count,
                    struct made_left *left, uint32_t known);
bool is_same_place(const struct place *a, const struct place *b);
/* Tells of communicators that some member freed and another one left. */
void tell_unfreed_members(struct steps *s);

/* ---- misuses.c ---- */

/* A rank tells how the program uses a buffer that an operation has. */
void note_misuse(struct steps *s, int rank);

/* ---- looks.c ---- */

/* What is told of a rank where nobody can go on, or 0. */
enum finding_kind kind_of_wait(const struct rank *own);
bool is_look(const struct rank *own);
bool is_list(uint32_t kind);
/* Answers a look whose answer isn't open: whether it did. */
bool answer_sure_look(struct steps *s, int rank);
bool answer_sure_probe(struct steps *s, int rank);
bool may_see(struct steps *s, int rank, int32_t source);
void give_probe(struct steps *s, int rank, int32_t source);
const struct pin *pin_for(const struct rank *own, const struct engine_call *call, bool is_whole);
void drop_pin(struct rank *own, const struct engine_call *call, int32_t source);

/* ---- arrivals.c ---- */

void log_event(struct steps *s, int rank, enum event_kind kind, uint32_t id, uint64_t name);
/* The message's place among all that was sent, or NOT_SENT: it goes to no rank. */
#define NOT_SENT UINT32_MAX
uint32_t log_sent(struct steps *s, int rank, const struct explorer_ask *ask);
void log_taking(struct steps *s, int rank, uint32_t at, const struct engine_call *call, int32_t source, bool is_look,
                const struct place *place);
void log_plan_taking(struct steps *s, int rank, const struct operation *it);
/* Whether it holds no more, so that something isn't known of the run. */
bool is_log_full(const struct steps *s);

/* ---- findings.c ---- */

struct finding *note(struct steps *s, int rank, enum finding_kind kind, const char *text, ...)
    __attribute__((format(printf, 4, 5)));
void at_place(struct finding *it, const struct place *place);
const char *peer_word(int32_t peer);
const char *tag_word(int32_t tag);
/* `rank 1`, or `ranks 1, 2 and 3`: how many. */
int say_ranks(const struct steps *s, uint64_t ranks, char *into, size_t room);
void tell_left(struct steps *s, int rank, const uint8_t *bytes);
void tell_unsafe(struct steps *s, const struct move *moves, int count);
struct operation *send_of(struct steps *s, const struct move *move);
#endif
