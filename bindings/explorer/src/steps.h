/* Steps of a program under the explorer. The engines of all ranks stand in one process, joined by a network that loses,
 * repeats and delays nothing. A rank asks; it is answered, or it is blocked. Where all are blocked or have ended there
 * are moves: what MPI leaves open. To take one answers some rank, or lets it go on. */
#ifndef EXPLORER_STEPS_H
#define EXPLORER_STEPS_H

#include "explorer_records.h"
#include "verdicts.h"

#include <stdbool.h>
#include <stdio.h>

enum { MOST_RANKS = 64 };

enum move_kind {
    MOVE_PART,  /* a call for a list ends some of those that are at their ends; `at` is a sum of their places */
    MOVE_MATCH, /* a receive of any source takes the message of the rank `at` of its communicator */
    MOVE_SEE,   /* a probe sees the message of the rank `at` of its communicator */
    MOVE_PLACE, /* a call for a list ends the request at this place */
    MOVE_ALL,   /* it ends all that are at their ends; `at` is a sum of their places */
    MOVE_TRUE,  /* a test says yes */
    MOVE_FALSE, /* a test or a probe says no */
    MOVE_BUFFER /* a send that waits is buffered after all; `at` is to whom */
};

/* What may be decided next, of the `op`-th operation of its kind (a receive or a look, or a send) of a rank. So a move
 * means the same on each way that leads to it. */
struct move {
    uint32_t kind; /* a move_kind */
    uint32_t rank;
    uint32_t op;
    uint32_t at;
};
bool is_same_move(const struct move *a, const struct move *b);

/* Ends the explorer, since what it would tell might not be so: for want of memory, say. The shell does it. */
_Noreturn void give_up(const char *why);
/* The number of want of memory. */
enum { NO_MEMORY = 14 };

/* A call of the program: its name, and the addresses of where it stands, innermost first. */
struct place {
    char name[EXPLORER_NAME];
    uint32_t count;
    uint64_t frames[EXPLORER_FRAMES];
    uint32_t number; /* which call of its rank it is */
};

/* What is told of a run: words, in which %0 and %1 stand for places. */
struct finding {
    enum finding_kind kind;
    int rank; /* -1: of none */
    int number;
    uint32_t weight;
    char text[480];
    struct place places[2];
    int place_count;
};

struct steps_options {
    int size;
    bool synchronous;  /* each standard send waits for its receive, each collective for all members */
    bool each;         /* whether a standard send waits is a choice of its own, made where nobody else can go on */
    uint64_t buffered; /* else one of so many bytes at most is buffered, and a longer one waits */
    int patience;      /* so many looks in a row may say no though something is there */
    bool goes_on;      /* an error that would end the program is told, and returned */
    struct choices *choices; /* where the rows of receives are that no engine knows */
};

struct steps;
struct steps *steps_new(const struct steps_options *options);
void steps_free(struct steps *s);

/* ---- what ranks ask ---- */

/* A rank asks; frames are those of the ask. */
void steps_ask(struct steps *s, int rank, const struct explorer_ask *ask, const uint64_t *frames,
               const struct explorer_entry *entries, const uint8_t *bytes);
/* The rank's process talks no more. */
void steps_gone(struct steps *s, int rank);
/* Goes on as far as nothing is open. */
void steps_progress(struct steps *s);
/* A rank whose answer is there, which is then taken; or -1. */
int steps_answered(struct steps *s, const struct explorer_answer **answer, const uint32_t **places,
                   const uint8_t **bytes);

/* ---- where the ranks are ---- */

bool steps_is_running(const struct steps *s, int rank);
/* How the run has ended, or that it goes on. */
enum ending steps_ending(const struct steps *s);
/* By an error or MPI_Abort that was told. */
bool steps_has_failed(const struct steps *s, int rank);
bool steps_has_finalized(const struct steps *s, int rank);
uint64_t steps_calls(const struct steps *s);
/* Whether a look was kept from saying no, since as many in a row had said so as may. */
bool steps_withheld(const struct steps *s);
/* Whether a receive was cancelled to which a message might have come first. */
bool steps_cancelled(const struct steps *s);
/* Whether a rank waits for an answer, so that it can be asked for its place; and what it told of that. */
bool steps_awaits(const struct steps *s, int rank);
void steps_stands(struct steps *s, int rank, const struct explorer_ask *ask, const uint64_t *frames);
/* Whether a rank stayed in a call that makes a communicator, since others weren't there. */
bool steps_kept(const struct steps *s);
/* Whether more requests were at their ends for MPI_Waitsome or MPI_Testsome than each part was a move of. */
bool steps_left_parts(const struct steps *s);
/* Whether a standard send was longer than is buffered. */
bool steps_sent_long(const struct steps *s);

/* ---- what may come next ---- */

/* The moves, where no rank runs; -1: some rank goes on. */
int steps_moves(struct steps *s, struct move *moves, int room);
/* Whether the move at this place says less of its look than another one there. */
bool steps_is_early(struct steps *s, int place);
void steps_take(struct steps *s, struct move move);
/* No move is left: ranks that only look are told no, unless it is a deadlock. Whether they were. */
bool steps_say_no(struct steps *s);
/* In words what a move is, of which %0 is the place. */
void steps_say_move(struct steps *s, struct move move, char *text, size_t room, struct place *place);

/* ---- what is told ---- */

/* What differs in collectives that not all members have entered, once the run is over; of others it is told before. */
void steps_tell_collectives(struct steps *s);
void steps_tell_deadlock(struct steps *s);
void steps_tell_rest(struct steps *s);
/* Of a run that was cut off when the time was over: where each rank stood. */
void steps_tell_stands(struct steps *s);
/* Ready sends that may come before their receives; where all ranks ended, those that have none, too. */
void steps_tell_ready(struct steps *s, bool is_at_end);
/* Whether there were some of which that isn't known. */
bool steps_is_ready_unsure(const struct steps *s);
/* Of a deadlock: what is there of those from whom a rank waits for a message, with another tag. */
void steps_tell_others(struct steps *s);
/* Told of a rank's process, with the rank's last call that came here, but for a record that is over. */
void steps_note(struct steps *s, int rank, enum finding_kind kind, const char *text);
/* In the order of ranks: how many. */
int steps_findings(struct steps *s, const struct finding **findings);
bool steps_has_mismatch(const struct steps *s);
/* The ranks of the cycle of a deadlock, each of which waits for the next one and the last one for the first: how many.
 */
int steps_cycle(const struct steps *s, int ranks[MOST_RANKS]);
/* Whether some one order in which messages arrived at each rank gives all that was taken. MPI allows more (3.5). */
bool steps_has_one_order(const struct steps *s);

/* What a run looks like: a message that went, or a call that many ranks enter. */
struct picture_item {
    enum { ITEM_SEND, ITEM_RECEIVE, ITEM_ENTER } kind;
    int rank;
    int message; /* of a send and its receive */
    int other;   /* the other rank, or -1 */
    int32_t tag;
    bool is_any; /* it is a receive of any source */
    struct place place;
};
/* In the order in which they happened: how many; the caller frees them. */
int steps_picture(const struct steps *s, struct picture_item **items);
#endif
