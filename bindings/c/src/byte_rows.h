/* The bytes of buffers, as runs of addresses (engine_buffers.h): pure functions of their arguments. */
#ifndef KOMBAZILY_BYTE_ROWS_H
#define KOMBAZILY_BYTE_ROWS_H

#include "engine_buffers.h"
#include "layouts.h"

/* At first all zeros: no bytes. They lie from the address `low` up to `high`. */
struct byte_rows {
    struct byte_run *list;
    size_t count, room;
    uint64_t low, high;
};

/* Adds the data of so many items at an address: false where there is no memory. */
bool add_byte_rows(struct byte_rows *rows, const struct layout *layout, const void *items, size_t count);
void free_byte_rows(struct byte_rows *rows);

/* Whether some byte is in both. */
bool share_bytes(const struct byte_rows *one, const struct byte_rows *other);

#endif
