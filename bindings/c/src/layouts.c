/* Type maps, but for their basic types: see layouts.h. */
#include "layouts.h"

#include <stdlib.h>
#include <string.h>

/* ---- runs ---- */

void release_runs(struct runs *runs) {
    if (runs == NULL || --runs->uses > 0) return;
    for (size_t i = 0; i < runs->count; i++) release_runs(body_of(&runs->list[i]));
    free(runs->list);
    free(runs);
}

/* Whether there is one row of bytes, and nothing else. */
static bool is_stretch(const struct runs *runs) { return runs->count == 1 && runs->list[0].count == 1; }

/* Where the piece would stand that goes on with a run. */
static ptrdiff_t place_behind(const struct run *run) {
    return (ptrdiff_t)((size_t)run->at + run->count * (size_t)run->stride);
}

struct run copies_of(const struct layout *layout, size_t items) {
    struct run made;
    const struct runs *runs = layout->runs;
    kombazily_type_copies(runs->list, runs->count, body_number(runs), layout->numbers.size, items,
                          layout->numbers.extent, &made);
    return made;
}

void layout_free(struct layout *layout) {
    release_runs(layout->runs);
    *layout = (struct layout){0};
}

bool is_row(const struct layout *layout, size_t items) {
    if (layout->runs == NULL || items == 0) return true;
    return is_stretch(layout->runs) && (items == 1 || layout->numbers.extent == (ptrdiff_t)layout->numbers.size);
}

size_t data_size(const struct layout *layout, size_t items) {
    return layout->numbers.size != 0 && items > SIZE_MAX / 2 / layout->numbers.size ? SIZE_MAX
                                                                                    : items * layout->numbers.size;
}

ptrdiff_t whole_items(const struct layout *layout, size_t bytes) {
    uint64_t items = 0;
    uint32_t number = kombazily_type_items(bytes, layout->numbers.size, &items);
    return number == 0 && items <= PTRDIFF_MAX ? (ptrdiff_t)items : -1;
}

/* ---- rows ---- */

/* Copies rows of one length: the loop of each length that basic types have is its own. */
#define ROWS_OF(bytes)                                                                                                 \
    case bytes:                                                                                                        \
        for (size_t i = 0; i < count; i++, to = further(to, to_stride), from = further(from, from_stride))             \
            memcpy(to, from, bytes);                                                                                   \
        return;
static inline void copy_rows(void *to, ptrdiff_t to_stride, const void *from, ptrdiff_t from_stride, size_t length,
                             size_t count) {
    switch (length) {
        ROWS_OF(1)
        ROWS_OF(2)
        ROWS_OF(4)
        ROWS_OF(8)
        ROWS_OF(12)
        ROWS_OF(16)
        ROWS_OF(24)
        ROWS_OF(32)
    }
    for (size_t i = 0; i < count; i++, to = further(to, to_stride), from = further(from, from_stride))
        memcpy(to, from, length);
}

/* Copies between the pieces of a run in memory and their row: in the direction that is said. */
enum direction { INTO_ROW, OUT_OF_ROW };
static inline void copy_pieces(enum direction direction, unsigned char *row, size_t row_stride, void *place,
                               ptrdiff_t stride, size_t length, size_t count) {
    if (direction == INTO_ROW) copy_rows(row, (ptrdiff_t)row_stride, place, stride, length, count);
    else copy_rows(place, stride, row, (ptrdiff_t)row_stride, length, count);
}

/* Whether a body's pieces can be copied by the row: first the first row of all pieces, then the second one. They are
 * few and short, and no piece reaches into another one, so that the last of two rows in one place stays the last. */
static bool goes_by_rows(const struct run *run) {
    const struct runs *body = body_of(run);
    if (body->rows == 0 || body->rows > 8 || run->length > 256 || run->count < 4) return false;
    size_t span = (size_t)body->high - (size_t)body->low, step = (size_t)run->stride;
    return (run->stride < 0 ? -step : step) >= span;
}

/* Copies a whole run whose item is at a place; the row begins where its data do. */
static void copy_run(enum direction direction, const struct run *run, unsigned char *row, void *place) {
    const struct runs *body = body_of(run);
    if (body == NULL) {
        copy_pieces(direction, row, run->length, further(place, run->at), run->stride, run->length, run->count);
        return;
    }
    if (goes_by_rows(run)) {
        for (const struct run *own = body->list; own != body->list + body->count; own++) {
            for (size_t i = 0; i < own->count; i++, row += own->length) {
                void *first = further(place, run->at + own->at + (ptrdiff_t)i * own->stride);
                copy_pieces(direction, row, run->length, first, run->stride, own->length, run->count);
            }
        }
        return;
    }
    for (size_t piece = 0; piece < run->count; piece++) {
        void *first = further(place, run->at + (ptrdiff_t)piece * run->stride);
        for (const struct run *own = body->list; own != body->list + body->count; own++) {
            copy_run(direction, own, row, first);
            row += own->length * own->count;
        }
    }
}

void pack(const struct layout *layout, const void *items, size_t count, unsigned char *row) {
    if (layout->runs == NULL || count == 0) return;
    struct run all = copies_of(layout, count);
    copy_run(INTO_ROW, &all, row, (void *)items);
}

/* Takes less than all data of runs from a row. */
static void unpack_some(const struct runs *runs, const unsigned char *row, size_t length, void *place) {
    for (const struct run *own = runs->list; length != 0; own++) {
        struct run whole = *own;
        if (whole.count > length / own->length) whole.count = length / own->length;
        size_t bytes = whole.count * own->length;
        copy_run(OUT_OF_ROW, &whole, (unsigned char *)row, place);
        row += bytes;
        length -= bytes;
        if (whole.count == own->count) continue;
        void *next = further(place, place_behind(&whole));
        if (body_of(own) != NULL) unpack_some(body_of(own), row, length, next);
        else memcpy(next, row, length);
        return;
    }
}

void unpack(const struct layout *layout, const unsigned char *row, size_t length, void *items) {
    if (layout->runs == NULL || length == 0) return;
    size_t whole = length / layout->numbers.size, rest = length % layout->numbers.size;
    if (whole != 0) {
        struct run all = copies_of(layout, whole);
        copy_run(OUT_OF_ROW, &all, (unsigned char *)row, items);
    }
    if (rest != 0) unpack_some(layout->runs, row + whole * layout->numbers.size, rest, item_at(layout, items, whole));
}

const void *data_row(const struct layout *layout, const void *items, size_t count, void **room) {
    static const unsigned char none;
    *room = NULL;
    size_t size = data_size(layout, count);
    if (size == 0) return &none;
    if (is_row(layout, count)) return row_of(layout, items);
    if (size == SIZE_MAX || (*room = malloc(size)) == NULL) return NULL;
    pack(layout, items, count, *room);
    return *room;
}
