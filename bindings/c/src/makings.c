/* Making layouts: see makings.h. */
#include "makings.h"

#include <stdlib.h>

void making_begin(struct making *making) {
    *making = (struct making){0};
    kombazily_type_begin(&making->made.numbers);
}

/* Makes the runs this layout's own, with room for so many further ones; false where there is no memory. */
static bool make_room(struct making *making, size_t further) {
    struct runs *own = making->made.runs;
    size_t count = own == NULL ? 0 : own->count, room = 2 * count > count + further ? 2 * count : count + further;
    if (further > SIZE_MAX / 4 / sizeof *own->list || count > SIZE_MAX / 4 / sizeof *own->list) return false;
    struct run *list = realloc(making->room == 0 ? NULL : own->list, room * sizeof *list);
    if (list == NULL) return false;
    if (making->room == 0) {
        struct runs *old = own;
        if ((own = malloc(sizeof *own)) == NULL) {
            free(list);
            return false;
        }
        *own = (struct runs){.uses = 1, .count = count};
        for (size_t i = 0; i < count; i++) {
            list[i] = old->list[i];
            if (list[i].body != 0) body_of(&list[i])->uses++;
        }
        release_runs(old);
    }
    own->list = list;
    making->made.runs = own;
    making->room = room;
    return true;
}

/* Copies that are asked for: one block, or rows that each are an item. */
struct copies {
    bool is_block;
    ptrdiff_t at;
    size_t count;
    ptrdiff_t stride, unit; /* a block has no stride */
};
static uint32_t ask(struct making *making, const struct layout *item, const struct copies *of, size_t *used) {
    struct run nothing = {0}, *row = making->room == 0 ? &nothing : making->made.runs->list;
    const struct run *runs = item->runs == NULL ? &nothing : item->runs->list;
    const size_t count = item->runs == NULL ? 0 : item->runs->count;
    struct type_numbers *numbers = &making->made.numbers;
    uint64_t body = item->runs == NULL ? 1 : body_number(item->runs);
    if (of->is_block)
        return kombazily_type_block(numbers, row, making->room, used, &item->numbers, runs, count, body, of->at,
                                    of->unit, of->count);
    return kombazily_type_rows(numbers, row, making->room, used, &item->numbers, runs, count, body, of->at, of->count,
                               of->stride, of->unit);
}

/* Adds copies of an item; its runs are held by the layout that has them, or a run of which they are the body. */
static void add(struct making *making, const struct layout *item, const struct copies *of) {
    if (making->end != LAYOUT_MADE || of->count == 0) return;
    const size_t before = making->made.runs == NULL ? 0 : making->made.runs->count;
    const size_t further = item->runs == NULL ? 0 : item->runs->count;
    size_t used = before;
    /* What is put behind runs that are an item's, too, is put behind a copy of them. */
    uint32_t number = before != 0 && making->room == 0 ? TYPE_NO_ROOM : ask(making, item, of, &used);
    if (number == TYPE_NO_ROOM && !make_room(making, further)) {
        making->end = LAYOUT_NO_MEMORY;
        return;
    }
    if (number == TYPE_NO_ROOM) number = ask(making, item, of, &used);
    if (number == TYPE_TOO_LARGE) making->end = LAYOUT_TOO_LARGE;
    if (number == TYPE_SHARED) {
        item->runs->uses++;
        making->made.runs = item->runs;
    }
    if (number != 0 || used == before) return;
    making->made.runs->count = used;
    for (const struct run *own = making->made.runs->list + before; own != making->made.runs->list + used; own++)
        if (own->body != 0) body_of(own)->uses++;
}

void making_block(struct making *making, const struct layout *item, ptrdiff_t at, ptrdiff_t unit, size_t length) {
    add(making, item, &(struct copies){.is_block = true, .at = at, .count = length, .unit = unit});
}

void making_blocks(struct making *making, const struct layout *item, ptrdiff_t at, size_t count, size_t length,
                   ptrdiff_t stride, ptrdiff_t unit) {
    struct making block;
    struct layout made;
    if (making->end != LAYOUT_MADE || count == 0 || length == 0) return;
    making_begin(&block);
    making_block(&block, item, 0, 1, length);
    making->end = making_end(&block, &made);
    if (making->end != LAYOUT_MADE) return;
    add(making, &made, &(struct copies){.at = at, .count = count, .stride = stride, .unit = unit});
    layout_free(&made);
}

void making_resize(struct making *making, ptrdiff_t lower, ptrdiff_t count, ptrdiff_t unit) {
    if (making->end != LAYOUT_MADE) return;
    if (kombazily_type_resize(&making->made.numbers, lower, count, unit) != 0) making->end = LAYOUT_TOO_LARGE;
}

enum layout_end making_end(struct making *making, struct layout *made) {
    struct runs *runs = making->made.runs;
    if (making->end == LAYOUT_MADE && kombazily_type_end(&making->made.numbers) != 0) making->end = LAYOUT_TOO_LARGE;
    if (making->end != LAYOUT_MADE) {
        release_runs(runs);
        return making->end;
    }
    *made = making->made;
    if (making->room == 0) return LAYOUT_MADE;
    runs->low = made->numbers.true_lower;
    runs->high = made->numbers.true_upper;
    for (size_t i = 0; i < runs->count; i++) runs->rows += runs->list[i].count;
    for (size_t i = 0; i < runs->count; i++)
        if (runs->list[i].body != 0) runs->rows = 0;
    return LAYOUT_MADE;
}
