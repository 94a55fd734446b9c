/* Carries plans out (engine_plans.h): collectives over sends and receives of an engine that no program has. A plan goes
 * on whenever MPI is called, so the same one makes a blocking and a nonblocking collective. */
#ifndef KOMBAZILY_PLAN_RUNS_H
#define KOMBAZILY_PLAN_RUNS_H

#include "communicators.h"
#include "engine_plans.h"
#include "internal.h"
#include "own_operations.h"
#include "types.h"

/* Items at an address: a block's data. */
struct place {
    void *at;
    size_t count;
    struct datatype *type; /* NULL where there are no data */
};

/* Blocks in the order of their slots. The list is freed with the plan, and holds its types. */
struct places {
    size_t count;
    struct place *list;
};

/* The kinds of exchanges with neighbours (neighbours.c) and of copies (later_copies.c), behind those of engine_plans.h.
 */
enum { PLAN_NEIGHBOURS = PLAN_BARRIER + 1, PLAN_COPY };

/* A collective as it is to be carried out. */
struct plan_call {
    const char *name; /* of the call of MPI */
    enum plan_kind kind;
    struct communicator *comm;
    int root;
    bool waits; /* the call does, for its end */
    struct places given, got;
    bool are_alike;          /* all blocks of all members have as many bytes, and all members know so */
    struct folding folding;  /* by what blocks are folded */
    struct plan_step *steps; /* NULL: those that the engine's plan has; else freed with the plan. Of an */
    size_t step_count;       /* intercommunicator they name all members */
    void *spare;             /* room that some places are in, or NULL: freed with the plan */
    uint32_t persistent;     /* of a persistent one its number in the communicator, and one more; else 0 */
};

/* The requests of collectives: their state is a run. */
extern const struct request_kind plan_kind;

struct plan_run;

/* Makes what carries it out for a request, and takes its lists over. NULL where there is no memory: the lists are the
 * caller's then. It may be started, and again once it is at its end. */
struct plan_run *make_plan(const struct plan_call *asked, struct request *request);
void start_plan(struct plan_run *run);
/* Goes on as far as it can, and notes in the request where it is at its end. */
void plan_goes_on(struct plan_run *run);
/* Why it failed, in at most LONGEST_CAUSE bytes: the program is told. */
void say_plan_end(const struct plan_run *run, char *text);
/* Forgets it. */
void end_plan(struct plan_run *run);

/* The number by which an explorer knows it. */
uint32_t plan_told(const struct plan_run *run);

/* All that are on their way go on, also where the engine is in a collective. */
void plans_go_on(void);

/* ---- plan_places.c ---- */

/* Bytes of data of a block. */
size_t place_length(struct place place);
/* One block becomes what another one is: 0, or a number. */
uint32_t copy_place(struct place from, struct place into);
/* The data of a block one behind the other: the block itself, or room that is to be freed. NULL: there are none, or no
 * memory. */
const void *place_row(struct place from, void **room);

void free_places(struct places *places);

/* The rank of a member in MPI_COMM_WORLD, and in the communicator's own world (worlds.h). */
int world_rank(const struct communicator *comm, int member);
int plan_rank(const struct communicator *comm, int member);
/* Numbers a communicator that was just made, at all its members at once: 0, or a number. What holds of it ends with
 * forget_number. */
uint32_t number_communicator(struct communicator *comm);
void forget_number(struct communicator *comm);

/* Numbers a persistent collective that is made, at all members in the order in which they make them (MPI 4.0, 6.13): 0,
 * or a number. The number is its own until forget_persistent. */
enum { MOST_PERSISTENT = 1 << 14 };
uint32_t number_persistent(struct communicator *comm, uint32_t *made);
void forget_persistent(struct communicator *comm, uint32_t made);

#endif
