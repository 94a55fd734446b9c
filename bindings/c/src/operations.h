/* The predefined operations of reductions (MPI 3.1, 5.9.2). */
#ifndef KOMBAZILY_OPERATIONS_H
#define KOMBAZILY_OPERATIONS_H

#include "engine.h"
#include "mpi.h"
#include "types.h"

#include <stdbool.h>

/* The engine's operation of a handle, or 0: there is none. */
int operation_of(MPI_Op op);
/* Its name, as `MPI_SUM`. */
const char *operation_name(enum engine_operation operation);
/* Whether it is defined on the types of a family, by the table of 5.9.2. */
bool is_defined_on(enum engine_operation operation, enum family family);

#endif
