/* Communicators (MPI 3.1, 6): what C keeps of them beside the engine. */
#ifndef KOMBAZILY_COMMUNICATORS_H
#define KOMBAZILY_COMMUNICATORS_H

#include "engine.h"
#include "mpi.h"

#include <stdbool.h>
#include <stdint.h>

struct attribute;
struct persistent_numbers;
struct topology;
struct two_groups;
struct world;

/* A communicator. */
struct communicator {
    uint32_t place; /* how the engine names it, and its world (worlds.h) */
    int rank;       /* the own rank in it */
    int size;
    int all_rank; /* the same in the engine's communicator, which has both groups of an intercommunicator */
    int all_size;
    struct world *world;       /* whose engine that is; held, or NULL before it is there */
    struct two_groups *groups; /* of intercommunicators.h: of an intercommunicator; else NULL */
    uint32_t made;             /* how many the members were to make of it, together */
    uint32_t depth;            /* of how many others it comes in its world, as a copy or a part */
    MPI_Errhandler errhandler;
    int uses; /* by the program's handle, and by operations that aren't at their end */
    char name[MPI_MAX_OBJECT_NAME];

    MPI_Comm handle;              /* as the program has it; it may have freed it */
    struct topology *topology;    /* of topologies.h, or NULL */
    struct attribute *attributes; /* of attributes.h */

    /* Of plan_places.c: the ranks in the world of all members (NULL: they are their ranks here), the number that all of
     * them know it by, how many plans were begun in it; under an explorer the engine's communicator for them, or 0. And
     * the numbers of persistent ones, or NULL. */
    uint16_t *members;
    uint32_t number, plans;
    struct persistent_numbers *persistents;
};

/* The communicator of a handle, or NULL: there is none. */
struct communicator *communicator_of(MPI_Comm handle);
/* The one that the engine names so, or NULL. */
struct communicator *communicator_at(uint32_t place);

/* Calls a function of each. */
void each_communicator(void (*visit)(const struct communicator *));

/* A communicator stays as long as it is held, even where the program frees it (6.4.3): the errors of its operations are
 * told to its own handler. */
struct communicator *hold_communicator(struct communicator *comm);
void release_communicator(struct communicator *comm);

/* Enters the call of the engine that makes a communicator of another one; its error handler goes on with it. A member
 * that isn't in the new one gets MPI_COMM_NULL. 0, or the class of an error, of which it has told the handler. */
int make_communicator(MPI_Comm comm, const char *call, struct engine_call *entry, MPI_Comm *newcomm);
/* The same of a communicator of which many were made (further_parts.c). */
int make_further(MPI_Comm comm, const char *call, const struct engine_call *entry, MPI_Comm *newcomm);
/* The same of a copy, which has what is kept with a communicator, too (6.4.2). */
int copy_communicator(MPI_Comm comm, const char *call, MPI_Comm *newcomm);
/* Makes one that is nowhere yet, with its handle; NULL: there is no memory. And says where it is: at a place of the
 * engine's, as its handler's heir of another one. */
struct communicator *new_communicator(MPI_Comm *handle);
void place_communicator(struct communicator *made, uint32_t place, const struct communicator *parent);
/* Takes a handle away, and what is kept with its communicator. */
void drop_communicator(MPI_Comm comm);
/* The members of a communicator, or of the own group of an intercommunicator, or of the other one, by their ranks in
 * MPI_COMM_WORLD, in order: NULL, and the class of an error. */
uint16_t *members_of_communicator(MPI_Comm comm, const char *call, int *class);
uint16_t *members_of_other(MPI_Comm comm, const char *call, int *class);

/* Makes MPI_COMM_WORLD and MPI_COMM_SELF, as the engine has them: 0, or the class of an error. */
int open_communicators(void);
/* Gives all communicators back, and all groups. */
void close_communicators(void);
void close_groups(void);

#endif
