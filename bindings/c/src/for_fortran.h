/* What the library of Fortran's calls (bindings/fortran) has of this one beside MPI. No program uses it. */
#ifndef KOMBAZILY_FOR_FORTRAN_H
#define KOMBAZILY_FOR_FORTRAN_H

#include "mpi.h"

/* Which lists a call of all members (of the other group, 6.6) or neighbours takes: an entry for each of them. */
enum list { LIST_OF_MEMBERS, LIST_OF_SOURCES, LIST_OF_DESTINATIONS };

struct kombazily_for_fortran {
    /* Where this thread notes the place in the program from which a call of Fortran comes; NULL there: of C. */
    const void **(*caller)(void);
    /* Tells the handler of MPI_COMM_WORLD of an error: its class. */
    int (*raise)(const char *call, int error_class, const char *cause);
    /* How many entries a list has; 0 where the communicator isn't one, or has no topology. */
    int (*entries)(MPI_Comm comm, enum list list);
    /* Attributes (17.2.7). The functions of this key are of Fortran: they have values as numbers. */
    void (*take_numbers)(int keyval);
    /* What was just set under a key is a number: C gets its address. */
    void (*keep_number_of_comm)(MPI_Comm comm, int keyval);
    void (*keep_number_of_type)(MPI_Datatype type, int keyval);
    /* A value that was set, as a number: what C set is an address. */
    MPI_Aint (*number_of_comm)(MPI_Comm comm, int keyval);
    MPI_Aint (*number_of_type)(MPI_Datatype type, int keyval);
};

/* The place that this thread noted, or NULL: see internal.h. */
extern _Thread_local const void *fortran_caller;

#endif
