/* The bytes of buffers: see byte_rows.h. */
#include "byte_rows.h"

#include <stdlib.h>

void free_byte_rows(struct byte_rows *rows) {
    free(rows->list);
    *rows = (struct byte_rows){0};
}

static bool add_row(struct byte_rows *rows, struct byte_run run) {
    if (rows->count == rows->room) {
        const size_t room = rows->room == 0 ? 4 : 2 * rows->room;
        struct byte_run *list = realloc(rows->list, room * sizeof *list);
        if (list == NULL) return false;
        rows->list = list;
        rows->room = room;
    }
    const uint64_t end = run.at + (run.count - 1) * run.stride + run.length;
    if (rows->count == 0 || run.at < rows->low) rows->low = run.at;
    if (end > rows->high) rows->high = end;
    rows->list[rows->count++] = run;
    return true;
}

/* Rows at regular places, counted from the lowest address on; those that touch are one row. */
static struct byte_run rising(uint64_t at, uint64_t length, uint64_t count, int64_t stride) {
    const uint64_t step = stride < 0 ? -(uint64_t)stride : (uint64_t)stride;
    if (stride < 0) at -= (count - 1) * step;
    if (step == length) return (struct byte_run){at, length * count, 1, 0};
    return (struct byte_run){at, length, count, step};
}

/* The pieces of a run whose body is rows, by the row: first the first row of all pieces, then the second one. */
static bool add_side_by_side(struct byte_rows *rows, const struct run *run, uint64_t first) {
    const struct runs *body = body_of(run);
    for (const struct run *own = body->list; own != body->list + body->count; own++)
        for (uint64_t i = 0; i < own->count; i++)
            if (!add_row(rows, rising(first + (uint64_t)own->at + i * (uint64_t)own->stride, own->length, run->count,
                                      run->stride)))
                return false;
    return true;
}

static bool add_run(struct byte_rows *rows, const struct run *run, uint64_t at) {
    const struct runs *body = body_of(run);
    const uint64_t first = at + (uint64_t)run->at;
    if (body == NULL) return add_row(rows, rising(first, run->length, run->count, run->stride));
    if (body->rows != 0 && body->rows < run->count) return add_side_by_side(rows, run, first);
    for (uint64_t piece = 0; piece < run->count; piece++)
        for (const struct run *own = body->list; own != body->list + body->count; own++)
            if (!add_run(rows, own, first + piece * (uint64_t)run->stride)) return false;
    return true;
}

bool add_byte_rows(struct byte_rows *rows, const struct layout *layout, const void *items, size_t count) {
    if (layout->runs == NULL || count == 0) return true;
    const struct run all = copies_of(layout, count);
    return add_run(rows, &all, (uintptr_t)items);
}

bool share_bytes(const struct byte_rows *one, const struct byte_rows *other) {
    if (one->count == 0 || other->count == 0 || one->high <= other->low || other->high <= one->low) return false;
    return kombazily_share_bytes(one->list, one->count, other->list, other->count) == 1;
}
