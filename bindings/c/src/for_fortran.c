/* What Fortran's calls have of the library: see for_fortran.h. Another thread may be in a call meanwhile, so each
 * waits for the library as a call does. */
#include "for_fortran.h"

#include "attributes.h"
#include "errors.h"
#include "intercommunicators.h"
#include "internal.h"
#include "neighbours.h"

_Thread_local const void *fortran_caller;

static const void **caller(void) { return &fortran_caller; }

static int raise(const char *call, int error_class, const char *cause) {
    NOTE_CALLER();
    return raise_on(MPI_COMM_WORLD, call, error_class, "%s", cause);
}

static int entries(MPI_Comm comm, enum list list) {
    NOTE_CALLER();
    const struct communicator *own = communicator_of(comm);
    int sources = 0, destinations = 0;
    if (own == NULL) return 0;
    if (list == LIST_OF_MEMBERS) return peers_of(own);
    count_neighbours_of(own, &sources, &destinations);
    return list == LIST_OF_SOURCES ? sources : destinations;
}

static void take_numbers_of(int keyval) {
    NOTE_CALLER();
    take_numbers(keyval);
}

static void keep_number_of_comm(MPI_Comm comm, int keyval) {
    NOTE_CALLER();
    const struct communicator *own = communicator_of(comm);
    if (own != NULL) keep_number(find_attribute(own->attributes, keyval));
}

static void keep_number_of_type(MPI_Datatype type, int keyval) {
    NOTE_CALLER();
    keep_number(find_attribute(values_of_type(type), keyval));
}

static MPI_Aint number_of_comm(MPI_Comm comm, int keyval) {
    NOTE_CALLER();
    const struct communicator *own = communicator_of(comm);
    return own == NULL ? 0 : value_as_number(find_attribute(own->attributes, keyval));
}

static MPI_Aint number_of_type(MPI_Datatype type, int keyval) {
    NOTE_CALLER();
    return value_as_number(find_attribute(values_of_type(type), keyval));
}

static const struct kombazily_for_fortran library = {.caller = caller,
                                                     .raise = raise,
                                                     .entries = entries,
                                                     .take_numbers = take_numbers_of,
                                                     .keep_number_of_comm = keep_number_of_comm,
                                                     .keep_number_of_type = keep_number_of_type,
                                                     .number_of_comm = number_of_comm,
                                                     .number_of_type = number_of_type};
const struct kombazily_for_fortran *MPI_F_LIBRARY = &library;
