/* Making layouts: what the new type's numbers and runs are is told by engine_types.h; memory is kept here. Pure
 * functions of their arguments. */
#ifndef KOMBAZILY_MAKINGS_H
#define KOMBAZILY_MAKINGS_H

#include "layouts.h"

/* How making a layout ended. A place, size or bound that isn't within 64 bits with a sign is too large. */
enum layout_end { LAYOUT_MADE, LAYOUT_TOO_LARGE, LAYOUT_NO_MEMORY };

/* A layout while it is made: copies of items are added one behind the other. */
struct making {
    enum layout_end end;
    struct layout made;
    size_t room; /* runs that it has memory for; 0: its runs are an item's, too */
};
void making_begin(struct making *making);
/* So many copies of an item one behind the other, the first one at a place in units of so many bytes. */
void making_block(struct making *making, const struct layout *item, ptrdiff_t at, ptrdiff_t unit, size_t length);
/* So many copies of a block of `length` items, the first one at a place, each further one a stride on; place and stride
 * are in units of so many bytes. */
void making_blocks(struct making *making, const struct layout *item, ptrdiff_t at, size_t count, size_t length,
                   ptrdiff_t stride, ptrdiff_t unit);
/* Sets markers of both bounds in place of those that there are: the extent is so many units of so many bytes. */
void making_resize(struct making *making, ptrdiff_t lower, ptrdiff_t count, ptrdiff_t unit);
/* The layout is the caller's, to be freed by layout_free, where it was made; else there is nothing to be freed. */
enum layout_end making_end(struct making *making, struct layout *made);

#endif
