/* Type maps (MPI 3.1, 4.1.1 to 4.1.8), but for their basic types: where the data of an item stand in memory, what its
 * bounds are, and how its data are put in a row. Pure functions of their arguments. */
#ifndef KOMBAZILY_LAYOUTS_H
#define KOMBAZILY_LAYOUTS_H

#include "engine_types.h"

#include <stdbool.h>
#include <stddef.h>
#include <stdint.h>

/* Runs in the order in which the data go; none is empty. Layouts that are made of one another share them. */
struct runs {
    size_t uses; /* by layouts, and as bodies */
    size_t count;
    ptrdiff_t low, high; /* the data stand from byte `low` up to `high` */
    size_t rows;         /* of which they are, where no run has a body; else 0 */
    struct run *list;
};

/* The runs that are a piece of a run, or NULL: it is a row. Their address is their number. */
static inline struct runs *body_of(const struct run *run) { return (struct runs *)(uintptr_t)run->body; }
static inline uint64_t body_number(const struct runs *runs) { return (uintptr_t)runs; }

/* A type map, but for its basic types. */
struct layout {
    struct type_numbers numbers;
    struct runs *runs; /* NULL where there are no data */
};
void layout_free(struct layout *layout);
void release_runs(struct runs *runs); /* or NULL */

/* So many items, which have data, as one run. */
struct run copies_of(const struct layout *layout, size_t items);

/* Whether so many items have their data in one row in memory, without gaps. */
bool is_row(const struct layout *layout, size_t items);

/* The bytes of data of so many items, or SIZE_MAX where that can't be told. */
size_t data_size(const struct layout *layout, size_t items);

/* Puts the data of so many items in a row. */
void pack(const struct layout *layout, const void *items, size_t count, unsigned char *row);

/* Puts the first bytes of a row where they belong, in their order; what they don't reach is as it was. */
void unpack(const struct layout *layout, const unsigned char *row, size_t length, void *items);

/* An address that lies so many bytes further on. Items may begin at MPI_BOTTOM, which is no object's address. */
static inline void *further(const void *address, ptrdiff_t by) { return (void *)((uintptr_t)address + (uintptr_t)by); }

/* Where the data of items are that stand in a row, and where they are put: the address of their first byte. */
static inline void *row_of(const struct layout *layout, const void *items) {
    return layout->runs == NULL ? (void *)items : further(items, layout->runs->list[0].at);
}

/* The address of an item among those that begin at an address, which may be NULL where the item has no data. */
static inline void *item_at(const struct layout *layout, const void *items, size_t number) {
    return further(items, (ptrdiff_t)(number * (size_t)layout->numbers.extent));
}

/* The row of so many items' data: the items themselves where they are one, else room that is to be freed behind its
 * use. NULL where there is no memory, and then only. `items` may be NULL where there are no data. */
const void *data_row(const struct layout *layout, const void *items, size_t count, void **room);

/* So many items were made of so many bytes of data, or -1 if they aren't whole items. */
ptrdiff_t whole_items(const struct layout *layout, size_t bytes);

#endif
