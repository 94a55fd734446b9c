/* A rank under the explorer (KOMBAZILY_EXPLORER): its calls go to another process, which holds the engines of all ranks
 * and decides what MPI leaves open. The gate is narrow: what asks the engine by ask_engine and takes data by
 * take_from_engine, and waits by progress_wait, goes through it as it stands. What tells the program that a request is
 * at its end, and could tell it of another one or later, asks here. */
#ifndef KOMBAZILY_EXPLORED_H
#define KOMBAZILY_EXPLORED_H

#include "explorer_records.h"
#include "internal.h"

extern bool is_explored;
/* Under an explorer, of whose passes this is told: whether members leave a collective as soon as they have what it
 * gives them and their own data are on the way (MPI 3.1, 5.1). Blocks go straight from member to member then. */
extern bool leaves_early;

/* ---- explored_start.c ---- */

/* In MPI_Init, once the place is known: whether the environment names an explorer, to which the rank then talks. */
bool explored_open(void);
/* In MPI_Finalize: tells what is left over, and waits for all ranks. */
void explored_finalize(void);
/* Tells the explorer that the program has called MPI_Init. */
void explored_start(void);
/* The explorer is gone, or ends this run. */
_Noreturn void explored_lose(void);
/* The descriptor of the explorer's socket. */
int explored_socket(void);
/* Where the last call stands, innermost first, where the explorer wants to know it: how many. From now on it does. */
uint32_t explored_frames(uint64_t frames[EXPLORER_FRAMES]);
void explored_want_places(void);
/* A program that plays calls of another one (bindings/record/player) has this function: where the call stands in that
 * program, and its name. */
extern uint32_t kombazily_played_place(uint64_t frames[EXPLORER_FRAMES], const char **name) __attribute__((weak));

/* ---- explored.c ---- */

/* Whether the next send that begins is a ready one. */
void explored_note_ready(bool is_ready);
/* The program has made something of this number, which is another one's once it is freed; it has freed a communicator.
 * Nothing happens without an explorer. */
void explored_made(enum made_kind kind, uint32_t number);
void explored_freed(uint32_t communicator);
/* As kombazily_call and kombazily_take. A call about a collective's send or receive names the collective by `plan`. */
void explored_call(const struct engine_call *call, uint32_t plan, const void *data, size_t len,
                   struct engine_answer *answer);
size_t explored_take(uint64_t first, uint8_t *into, size_t len);
/* Asks for something of which the rank tells more than a call, with entries and bytes behind it. The answer, and what
 * stands behind it, stay until the next ask. */
const struct explorer_answer *explored_ask(struct explorer_ask *ask, const struct explorer_entry *entries,
                                           const void *bytes, const uint32_t **places);
/* The data of an answer are these, which stay where they are until the next ask. */
void explored_lend(const uint8_t *from, const struct engine_answer *answer);
/* The data of the last answer, which the caller frees. */
uint8_t *explored_keep(void);
/* Its number may be another request's. */
void explored_free_key(uint64_t key);
/* Tells that a collective begins which goes by sends and receives: by which name, and what an ASK_ENTER tells of it.
 * Its number, of which explored_leave makes another one's. */
uint32_t explored_enter(const char *name, const struct engine_call *entry, bool waits,
                        const struct explorer_block *blocks, size_t count);
void explored_leave(uint32_t plan);
/* Of so many of the first of these sends it is known here that they were received. */
size_t explored_received(const struct explorer_entry *sends, size_t count);
/* Waits until something may have changed for what this rank looked at. */
void explored_pause(void);
void explored_probe(const struct engine_call *probe, bool waits, struct engine_answer *answer);
/* Tells of an error that ends the program, or that a call returned: whether the program is to go on. */
bool explored_error(enum explorer_ask_kind kind, const char *call, int class, const char *text);
/* Tells of a call that can't be explored, by which the run ends; nothing happens without an explorer. */
void explored_refuse(const char *call, const char *cause);
void explored_abort(int code);
/* Where the call of now stands; and tells how the buffer of an operation is misused that was begun there. */
struct begun {
    const char *name;
    const void *caller;
    uint64_t call; /* the how-many-th of the process */
    struct explorer_begun told;
};
struct begun begun_here(void);
void explored_misuse(enum misuse misuse, const struct begun *begun);
/* A clock that goes on by a millisecond with each look: a program's time is the same in each run of the same choices.
 */
uint64_t explored_nanoseconds(void);

/* ---- explored_requests.c ---- */

/* Waits until a request of the engine is at its end: false of another one. */
bool explored_wait(struct request *request);
/* Waits until all of a list are at their ends: false where one isn't of the engine. */
bool explored_wait_all(int count, const MPI_Request list[]);
/* Whether the program is told that all of these are at their ends; then they are ended. */
bool explored_test(int count, const MPI_Request list[]);
/* The place of the one of which it is told, -1: of none, MPI_UNDEFINED: all are null. */
int explored_any(bool waits, int count, const MPI_Request list[]);
/* How many it is told of; those are ended. */
int explored_some(bool waits, int count, const MPI_Request list[]);
/* What the explorer is told of a request of a list. */
struct explorer_entry explored_entry(struct request *request);
/* The requests that have handles, as entries, which the caller frees. */
struct explorer_entry *explored_left(uint32_t *count);
/* The numbers of persistent requests that aren't active and weren't freed: how many; up to `room` are put there. */
uint32_t persistent_left(uint32_t *numbers, uint32_t room);
/* Whether the program is told of the end of this one now, behind such a call. */
bool is_told(struct request *request);
#endif
