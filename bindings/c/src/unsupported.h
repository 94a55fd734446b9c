/* What isn't supported, and is linked (MPI 3.1, 10, 11, 13): the calls of unsupported_*.c, and how each answers. */
#ifndef KOMBAZILY_UNSUPPORTED_H
#define KOMBAZILY_UNSUPPORTED_H

#include "errors.h"
#include "internal.h"

/* MPI_ERR_UNSUPPORTED_OPERATION, of which the handler of the communicator was told: the cause says what isn't there. */
int unsupported(MPI_Comm comm, const char *call, const char *cause);

/* The same of a file, by the handler of MPI_FILE_NULL (13.7). */
int unsupported_of_file(const char *call);
#endif
