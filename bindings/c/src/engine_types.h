/* Types: functions of their arguments alone. What they answer is decided and proved in Rattle (the crates type_maps and
 * type_runs): of each the map of MPI 3.1, 4.1, is told that the new type has, where the numbers and the runs of the old
 * one are those of a map. A refusal changes nothing. */
#ifndef KOMBAZILY_ENGINE_TYPES_H
#define KOMBAZILY_ENGINE_TYPES_H

#include <stdbool.h>
#include <stddef.h>
#include <stdint.h>

enum type_number {
    TYPE_TOO_LARGE = 96, /* a place, the size, or where data or markers lie isn't within 64 bits with a sign */
    TYPE_NO_ROOM = 97,   /* the row hasn't room for one run more, or for as many as the item has */
    TYPE_SHARED = 98,    /* what was added is all there is, and its runs are the item's */
    TYPE_NO_ITEMS = 99   /* so many bytes aren't whole items */
};

/* The numbers of a type map, in bytes. */
struct type_numbers {
    uint64_t size;                  /* of the data, below 2^63 */
    uint64_t elements;              /* of basic types, below 2^63 */
    int64_t true_lower, true_upper; /* the bounds of the data alone (4.1.8); 0 where there are none */
    int64_t lower_mark, upper_mark; /* the lowest marker of the lower bound, the highest of the upper one (4.1.7) */
    int64_t lower, extent;          /* the lower bound; from one item to the next (4.1.6): told by kombazily_type_end */
    uint32_t alignment;             /* the greatest of its basic types */
    uint32_t kinds, kind;      /* what elements are carried as: 0 (none), 1 (`kind`, an engine_basic), 2 (several) */
    bool has_data;             /* whether there are elements */
    bool has_lower, has_upper; /* whether there are markers of this bound */
};

/* `count` pieces of data, the first one `at`, seen from the item's address, each `stride` bytes behind the one before
 * it. A piece has `length` bytes of data: a row of bytes where `body` is 0, else those of the body, seen from the
 * piece's address. */
struct run {
    int64_t at;
    uint64_t length;
    uint64_t count;
    int64_t stride;
    uint64_t body; /* a number of C's: of some runs */
};

/* The numbers of a type without data and markers. */
void kombazily_type_begin(struct type_numbers *numbers);

/* Adds copies of an item to a type that is being made, which has these numbers and the first `used` runs of a row: the
 * item has these numbers and runs, and `body` is the number of its runs, which isn't 0. 0 where it did, TYPE_SHARED,
 * TYPE_NO_ROOM or TYPE_TOO_LARGE. The first runs keep their bodies; those that come have bodies that the item's runs
 * have, or `body`.
 *
 * A block: `length` items one behind the other, from the place `at` on, counted in units of so many bytes. */
uint32_t kombazily_type_block(struct type_numbers *numbers, struct run *row, size_t room, size_t *used,
                              const struct type_numbers *item, const struct run *runs, size_t count, uint64_t body,
                              int64_t at, int64_t unit, uint64_t length);

/* Rows: `length` items from the place `at` on, each `stride` further on, both counted in units of so many bytes. */
uint32_t kombazily_type_rows(struct type_numbers *numbers, struct run *row, size_t room, size_t *used,
                             const struct type_numbers *item, const struct run *runs, size_t count, uint64_t body,
                             int64_t at, uint64_t length, int64_t stride, int64_t unit);

/* Marks both bounds in place of the markers that there are: the extent is `count` units of so many bytes. 0 or
 * TYPE_TOO_LARGE. */
uint32_t kombazily_type_resize(struct type_numbers *numbers, int64_t lower, int64_t count, int64_t unit);

/* Tells the bounds: 0; or TYPE_TOO_LARGE, where one of them, the extent or the true extent isn't within 64 bits. */
uint32_t kombazily_type_end(struct type_numbers *numbers);

/* So many items as one run, each `stride` bytes behind the one before it: how they are copied. */
void kombazily_type_copies(const struct run *runs, size_t count, uint64_t body, uint64_t size, uint64_t items,
                           int64_t stride, struct run *made);

/* How many whole items of so many bytes a number of bytes is (4.1.11): 0 or 99. */
uint32_t kombazily_type_items(uint64_t bytes, uint64_t size, uint64_t *items);

/* Of a dimension of `size` places, of which blocks of `block` places go round `processes` processes (4.1.4): how many
 * whole blocks a process has, each a round behind the one before it, and how many places of another one behind them.
 * 0, or TYPE_TOO_LARGE where a number is 0 or the process isn't one of them. */
uint32_t kombazily_type_share(uint64_t size, uint64_t block, uint64_t processes, uint64_t process, uint64_t *blocks,
                              uint64_t *rest);

#endif
