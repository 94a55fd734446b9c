/* Error handlers (MPI 3.1, 8.3): the two of the library, and those of a program's functions. */
#ifndef KOMBAZILY_HANDLERS_H
#define KOMBAZILY_HANDLERS_H

#include "communicators.h"

/* An error handler stays as long as it is held: by the program's handles, and by communicators. */
MPI_Errhandler hold_handler(MPI_Errhandler handler);
void release_handler(MPI_Errhandler handler);

/* Calls the function of a communicator's handler: false where it has none of a program's. */
bool call_handler(const struct communicator *comm, int code);

void close_handlers(void);

#endif
