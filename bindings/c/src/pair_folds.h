/* MINLOC and MAXLOC on pairs of a value and an index (MPI 3.1, 5.9.4), and products of complex numbers (5.9.2): pure
 * functions, of what the engine has no numbers for. */
#ifndef KOMBAZILY_PAIR_FOLDS_H
#define KOMBAZILY_PAIR_FOLDS_H

#include "types.h"

#include <stdbool.h>
#include <stddef.h>

/* Makes of each pair of `high` what MAXLOC, or MINLOC, makes of the one of `low` at the same place and of it: the one
 * with the greater, or the lesser, value; of two that are equal, the one with the lesser index. Where a value is a NaN,
 * the first such pair. Addresses are those of C's structs. */
void fold_pairs(enum pair pair, bool is_greatest, const void *low, void *high, size_t count);

/* The same of products; each number is two floats of so many bytes: 4, 8, or as many as a long double has. */
void multiply_complex(size_t bytes, const void *low, void *high, size_t count);

#endif
