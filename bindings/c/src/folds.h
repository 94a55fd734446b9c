/* Reductions of long doubles (MPI 3.1, 5.9.2), which the engine doesn't know: pure functions. */
#ifndef KOMBAZILY_FOLDS_H
#define KOMBAZILY_FOLDS_H

#include "engine.h"

#include <stddef.h>

/* Puts `all[i] OPERATION next[i]` into `all[i]`, for each i below the count. The operation is ENGINE_MAX, MIN, SUM or
 * PROD. As with the engine's numbers, MAX and MIN give the first NaN, where one of the two is a NaN, and -0 is less
 * than 0. Addresses needn't be aligned. */
void fold_long_doubles(enum engine_operation operation, void *all, const void *next, size_t count);

/* The same where the result goes into the second row. */
void fold_long_doubles_into(enum engine_operation operation, const void *low, void *high, size_t count);

#endif
