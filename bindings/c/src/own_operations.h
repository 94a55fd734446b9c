/* Operations of reductions, those of the program among them (MPI 3.1, 5.9.5), and what they make of two members' items.
 */
#ifndef KOMBAZILY_OWN_OPERATIONS_H
#define KOMBAZILY_OWN_OPERATIONS_H

#include "engine.h"
#include "mpi.h"
#include "types.h"

#include <stdbool.h>

/* The predefined operations that the engine hasn't, behind those that it has (5.9.4). The last two are those of windows
 * (11.3.4), by which nothing is reduced. */
enum { OPERATION_MINLOC = ENGINE_BXOR + 1, OPERATION_MAXLOC, OPERATION_REPLACE, OPERATION_NO_OP };

/* An operation: a predefined one, or a function of the program. */
struct operation {
    int number;                  /* of a predefined one: an engine_operation, or one of these */
    MPI_User_function *function; /* or NULL */
    bool commutes;
    int uses; /* by the program's handle, and by reductions that aren't at their end */
    const char *name;
};

/* The operation of a handle, or NULL. */
struct operation *operation_at(MPI_Op op);
/* Whether the engine can't reduce items of this type by it: a function of the program, MINLOC and MAXLOC, a product of
 * complex numbers. */
bool is_for_plans(MPI_Op op, MPI_Datatype datatype);
/* It stays as long as it is used, even where the program frees it (5.9.5). NULL is none. */
void release_operation(struct operation *operation);
/* Gives all operations of the program back. */
void close_operations(void);

/* Whether it is defined on the items of a type: 0, or the class of the error, of which it has told. */
int check_operation(MPI_Comm comm, const char *call, MPI_Op op, const struct datatype *type, struct operation **found);

/* By what items are folded. A function of the program is told the type's handle. */
struct folding {
    struct operation *operation; /* NULL: nothing is folded */
    MPI_Datatype handle;
};

/* Makes of each item of `high` what the operation makes of the one of `low` at the same place and of it, in this order:
 * 0, or a number. By the crate `reductions` where the engine knows the numbers. */
uint32_t fold_items(const struct folding *folding, const void *low, void *high, size_t count,
                    const struct datatype *type);
/* Whether such folds are known to be associative, so that a reduction may fold any two that stand beside one another
 * first. All members say so alike: it hangs on the operation and the type. */
bool folds_regroup(const struct folding *folding, const struct datatype *type);

#endif
