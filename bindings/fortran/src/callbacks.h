/* Functions of Fortran that the library calls (MPI 3.1, 17.2.6), and what is kept for them. */
#ifndef KOMBAZILY_CALLBACKS_H
#define KOMBAZILY_CALLBACKS_H

#include "wrappers.h"

/* What Fortran's functions get. Those of operations and of error handlers take what C's take, since the low half of a
 * handle, which stands first in memory, is the handle as Fortran has it (17.2.4). */
_Static_assert(__BYTE_ORDER__ == __ORDER_LITTLE_ENDIAN__ && sizeof(MPI_Comm) == 8, "the low half stands first");
typedef void fold_function(void *low, void *high, MPI_Fint *count, MPI_Fint *datatype);
typedef void handler_function(MPI_Fint *handle, MPI_Fint *code, ...);
/* Those of attributes: of communicators and types, and of MPI-1. */
typedef void copy_function(const MPI_Fint *handle, const MPI_Fint *keyval, const MPI_Aint *extra_state,
                           const MPI_Aint *in, MPI_Aint *out, MPI_Fint *flag, MPI_Fint *ierror);
typedef void delete_function(const MPI_Fint *handle, const MPI_Fint *keyval, const MPI_Aint *value,
                             const MPI_Aint *extra_state, MPI_Fint *ierror);
typedef void old_copy_function(const MPI_Fint *comm, const MPI_Fint *keyval, const MPI_Fint *extra_state,
                               const MPI_Fint *in, MPI_Fint *out, MPI_Fint *flag, MPI_Fint *ierror);
typedef void old_delete_function(const MPI_Fint *comm, const MPI_Fint *keyval, const MPI_Fint *value,
                                 const MPI_Fint *extra_state, MPI_Fint *ierror);
/* Those of generalised requests. */
typedef void query_function(MPI_Aint *extra_state, MPI_Fint *status, MPI_Fint *ierror);
typedef void free_function(MPI_Aint *extra_state, MPI_Fint *ierror);
typedef void cancel_function(MPI_Aint *extra_state, MPI_Fint *complete, MPI_Fint *ierror);

/* Gives back what is kept for the functions of attributes: behind MPI_Finalize none of them is called. */
void forget_functions(void);

#endif
