/* Collectives over rows of elements: each is one collective of the engine, or goes in parts where the row is longer
 * than that takes (parts.h). Each answers 0, or the number of the engine's that isn't. */
#ifndef KOMBAZILY_ROWS_H
#define KOMBAZILY_ROWS_H

#include "communicators.h"
#include "engine.h"
#include "types.h"

#include <stddef.h>
#include <stdint.h>

/* Enters a collective and waits for its end: 0, or a number. */
uint32_t enter_engine(const struct engine_call *entry, const void *data, size_t length, struct engine_answer *answer);

/* A collective's place: the communicator, its root, and what the elements are. */
struct collective {
    const struct communicator *comm;
    int root;
    uint32_t basic;
    size_t unit; /* bytes of an element */
};
struct collective collective_of(const struct communicator *comm, int root, const struct datatype *type, size_t bytes);

/* The root's row, at all members (5.4). */
uint32_t broadcast_row(struct collective of, void *row, size_t length);

/* All members' rows of this length at the root, in rank order (5.5). `all` is significant there alone. */
uint32_t gather_rows(struct collective of, const void *row, size_t length, unsigned char *all);

/* The own part of the root's rows, each of this length (5.6). `all` is significant there alone; `row` may be NULL. */
uint32_t scatter_rows(struct collective of, const unsigned char *all, size_t length, void *row);

/* The rows of all members combined element by element, by the engine: at the root, or at all members (5.9.1, 5.9.6). */
uint32_t reduce_rows(struct collective of, enum engine_operation operation, const void *row, size_t length,
                     void *result);
uint32_t allreduce_rows(struct collective of, enum engine_operation operation, const void *row, size_t length,
                        void *result);

/* The same of long doubles: gathered at the root and folded there in rank order, as the engine does with its own
 * floats, so that the bits of the result are the same in every run. Members that make different things of them are
 * told. */
uint32_t fold_rows(struct collective of, enum engine_operation operation, const void *row, size_t length, void *result);
uint32_t fold_rows_for_all(struct collective of, enum engine_operation operation, const void *row, size_t length,
                           void *result);

#endif
