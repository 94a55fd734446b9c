/* Errors (MPI 3.1, 8.3 and 8.4): what a call answers, whom it tells, and the checks that many calls need. */
#ifndef KOMBAZILY_ERRORS_H
#define KOMBAZILY_ERRORS_H

#include "communicators.h"
#include "mpi.h"
#include "types.h"

#include <stdint.h>

/* Tells the error handler of a communicator (of MPI_COMM_WORLD, where there is no such one) of an error. With
 * MPI_ERRORS_RETURN it answers the class; else it writes one line, `rank 3: MPI_Send: rank 7 of a communicator of 4`,
 * and ends the job with the class as its status. The cause is a format as for printf. */
int raise_on(MPI_Comm comm, const char *call, int class, const char *cause, ...) __attribute__((format(printf, 4, 5)));

/* The same of a communicator itself, which the program may have freed; NULL is that of MPI_COMM_WORLD. */
int raise_in(const struct communicator *comm, const char *call, int class, const char *cause, ...)
    __attribute__((format(printf, 4, 5)));

/* Ends the job, whatever the handler: where no call is there that could answer. */
void raise_fatal(const char *call, int class, const char *cause, ...) __attribute__((format(printf, 3, 4)));

/* The same of a number of the engine that isn't 0; and where it may be that of a limit, by the name of this limit. */
int raise_number(MPI_Comm comm, const char *call, uint32_t number);
int raise_limited(MPI_Comm comm, const char *call, uint32_t number, const char *limit);

/* The limit of calls that open a request or take a message out. */
#define LIMIT_OF_REQUESTS "65,536 requests are open, or no number is left for another one"

/* The class of a number of the engine, and what it means, in words. */
int class_of(uint32_t number);
const char *cause_of(uint32_t number);

/* Checks of what a call was given. Each answers 0, or the class of the error, of which it has told the handler. */
/* That MPI is initialised and isn't finalised: else the process ends. */
void check_running(const char *call);
int check_comm(MPI_Comm comm, const char *call, struct communicator **found);
int check_count(MPI_Comm comm, const char *call, int count);
int check_type(MPI_Comm comm, const char *call, MPI_Datatype type, struct datatype **found);
/* An address may be NULL or MPI_IN_PLACE where there are no data. */
int check_buffer(MPI_Comm comm, const char *call, const void *buf, int count, const struct datatype *type);
/* A rank of the communicator or MPI_PROC_NULL; a source may be MPI_ANY_SOURCE, too. */
int check_target(MPI_Comm comm, const char *call, const struct communicator *in, int rank);
int check_source(MPI_Comm comm, const char *call, const struct communicator *in, int rank);
int check_root(MPI_Comm comm, const char *call, const struct communicator *in, int rank);
/* A tag is 0 or more; that of a receive may be MPI_ANY_TAG, too. */
int check_tag(MPI_Comm comm, const char *call, int tag);
int check_receive_tag(MPI_Comm comm, const char *call, int tag);
/* A function of the program's is there. */
int check_function(const char *call, bool is_there);
/* What a call answers in isn't NULL. */
int check_result(MPI_Comm comm, const char *call, const void *result, const char *name);

#endif
