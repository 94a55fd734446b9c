/* Worlds: the ranks of MPI_COMM_WORLD, or those of a group that has engines of its own, the same proved ones.
 *
 * All ranks of a job are in the first world. A group that makes a communicator alone (MPI_Comm_create_group,
 * MPI_Intercomm_create, MPI_Comm_idup) makes another one: its first member draws a number that no other world of the
 * job ever has, and tells it to the others; each opens two engines, one for what programs ask and one for plans
 * (plan_runs.h). The datagrams of all go over one socket, and each is handed to the engine whose number it carries.
 * What is sent to a member that hasn't opened its engine yet is kept there for a while, or goes again. */
#ifndef KOMBAZILY_WORLDS_H
#define KOMBAZILY_WORLDS_H

#include "carried.h"
#include "engine.h"

#include <stdbool.h>
#include <stddef.h>
#include <stdint.h>

enum { OF_PROGRAMS, OF_PLANS, ENGINES };

/* A communicator's number in its messages' tags, of plans: so many there are in a world. */
enum { PLAN_NUMBERS = 4096, PLAN_WORDS = PLAN_NUMBERS / 64 };

struct world {
    uint32_t base;     /* the place of the communicator of all its ranks (PLACE_BITS) */
    uint64_t number;   /* by which its engines' jobs are told from those of the first world: 0 */
    int rank, size;    /* of this process, in it */
    uint16_t *members; /* their ranks in MPI_COMM_WORLD; NULL: the same as here */
    struct carried engines[ENGINES];
    int uses; /* by communicators; where there are none it is left, and ends once all members have left it */
    uint64_t taken[PLAN_WORDS]; /* numbers of communicators that are in use: plan_places.c */
    int have_left;              /* at its first rank: how many others have said so */
    bool awaits_word;           /* it was left, all is acknowledged, and others are to tell that they have left it */
    struct world *next;         /* among those with like numbers */
    struct world *next_left;    /* among those that this process has left and looks at */
};

/* The places of communicators, and the keys of requests, of all worlds are told apart by the number of the world's
 * place above those that its engine has (engine.h): those of the first world are what its engine says. */
enum { PLACE_BITS = 13, KEY_BITS = 32 };

extern struct world first_world;

/* The world of a communicator's place, or of a request's key; NULL: there is none. */
struct world *world_of_place(uint32_t place);
struct world *world_of_key(uint64_t key);

/* A number for a world whose first member is this process, which none of the job had before; 0: there is none left. */
uint64_t draw_number(void);
/* The number of the job that the datagrams of an engine carry. */
uint64_t job_of(const struct world *world, int kind);
/* The world and the kind of the engine that the datagrams of a job's number are for, or NULL; and that of a number. */
struct world *world_of_job(uint64_t job, int *kind);
struct world *world_numbered(uint64_t number);
/* Whether this may be the number of a world of this job that isn't there yet. */
bool may_be_ours(uint64_t job);

/* Opens a world of these members, of which this process is one, and takes their list over in any case: NULL where there
 * is no memory. It is used once then. */
struct world *open_world(uint64_t number, uint16_t *members, int size);
/* Makes an engine of it, where it isn't there: 0, or the number of a refusal. One of plans is made when it is needed:
 * whether it is there. */
uint32_t make_engine(struct world *world, int kind);
/* Whether so many engines are on one machine that all share what they learn of how late ranks are. */
bool share_lateness(void);
static inline bool need_engine(struct world *world, int kind) {
    return world->engines[kind].world != NULL || make_engine(world, kind) == 0;
}
struct world *hold_world(struct world *world);
/* Of progress.c: takes in what has come for a world that was just opened; and nothing goes on in an engine any more. */
void take_kept(const struct world *world);
void drop_carried(struct carried *own);
/* From now on what an engine learns of the round trips to a process the others learn, too. */
void share_estimates(void);

/* The rank in MPI_COMM_WORLD of a rank of a world; and back, or -1. */
int first_rank(const struct world *world, int rank);
int rank_in(const struct world *world, int first);

/* Gives one back, or all: nobody asks for an acknowledgement of theirs any more. */
void end_world(struct world *world);
void close_worlds(void);

/* ---- world_ends.c ---- */

/* Where nobody uses it any more, the world ends once all its members have left it. */
void release_world(struct world *world);
/* Goes on with the ends of those that were left; and from now on no more: all processes are to end. */
void worlds_go_on(void);
void stop_worlds(void);
/* How many said that they have left a world before it was there: forgets that. And forgets all. */
int take_early(uint64_t number);
void forget_early(void);

/* ---- kept_datagrams.c ---- */

/* Keeps a datagram of a world that isn't there yet, where there is room, and the address and port that it came from. */
void keep_datagram(uint32_t address, uint16_t port, const unsigned char *bytes, size_t len);
/* Hands out those of a job's number, in their order. */
typedef void datagram_taker(uint32_t address, uint16_t port, const unsigned char *bytes, size_t len);
void hand_kept(uint64_t job, datagram_taker *taker);
void drop_kept(void);

#endif
