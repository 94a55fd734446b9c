/* Layouts: bounds, sizes, rows; beside lists of every byte, made as 4.1 of MPI 3.1 defines types. */
#include "../../src/makings.h"
#include "unit.h"

#include <limits.h>
#include <stdint.h>

/* An element of so many bytes, aligned to them. */
static struct layout element_of(size_t size) {
    static struct run lists[17];
    static struct runs runs[17];
    lists[size] = (struct run){0, size, 1, 0, 0};
    runs[size] = (struct runs){1000000, 1, 0, (ptrdiff_t)size, 1, &lists[size]};
    return (struct layout){.numbers = {.size = size,
                                       .elements = 1,
                                       .extent = (ptrdiff_t)size,
                                       .true_upper = (ptrdiff_t)size,
                                       .alignment = (uint32_t)size,
                                       .kinds = 1,
                                       .kind = (uint32_t)size,
                                       .has_data = true},
                           .runs = &runs[size]};
}

/* Blocks of items at places in extents, and the layout of them. */
struct block {
    size_t length;
    ptrdiff_t at;
};
static enum layout_end make_blocks(const struct layout *item, const struct block *blocks, size_t count,
                                   struct layout *made) {
    struct making making;
    making_begin(&making);
    for (size_t i = 0; i < count; i++)
        making_block(&making, item, blocks[i].at, item->numbers.extent, blocks[i].length);
    return making_end(&making, made);
}
static enum layout_end make_vector(const struct layout *item, size_t count, size_t length, ptrdiff_t stride,
                                   struct layout *made) {
    struct making making;
    making_begin(&making);
    making_blocks(&making, item, 0, count, length, stride, 1);
    return making_end(&making, made);
}

/* The same, which have to be made; the vector's stride is in extents. */
static struct layout made_of(const struct layout *item, const struct block *blocks, size_t count) {
    struct layout made;
    CHECK(make_blocks(item, blocks, count, &made) == LAYOUT_MADE);
    return made;
}
static struct layout vector_of(const struct layout *item, size_t count, size_t length, ptrdiff_t stride) {
    struct layout made;
    CHECK(make_vector(item, count, length, stride * item->numbers.extent, &made) == LAYOUT_MADE);
    return made;
}

/* `count` is that of the runs. */
static void check_bounds(const struct layout *layout, size_t size, ptrdiff_t lower, ptrdiff_t extent, size_t count) {
    CHECK(layout->numbers.size == size && layout->numbers.lower == lower && layout->numbers.extent == extent);
    CHECK((layout->runs == NULL ? 0 : layout->runs->count) == count);
}

static void check_blocks(void) {
    struct layout integer = element_of(4);
    struct layout row = made_of(&integer, (struct block[]){{3, 0}}, 1);
    check_bounds(&row, 12, 0, 12, 1);
    CHECK(is_row(&row, 5));
    struct layout gaps = made_of(&integer, (struct block[]){{2, 0}, {1, 4}}, 2);
    check_bounds(&gaps, 12, 0, 20, 2);
    CHECK(!is_row(&gaps, 1) && is_row(&gaps, 0));
    struct layout behind = made_of(&integer, (struct block[]){{2, 3}}, 1);
    check_bounds(&behind, 8, 12, 8, 1);
    CHECK(is_row(&behind, 1) && is_row(&behind, 9) && row_of(&behind, NULL) == (void *)12);
    struct layout before = made_of(&integer, (struct block[]){{1, 2}, {1, -1}}, 2);
    check_bounds(&before, 8, -4, 16, 1);
    struct layout nested = made_of(&gaps, (struct block[]){{2, 1}, {0, 50}, {1, 4}}, 3);
    check_bounds(&nested, 36, 20, 80, 3);
    struct layout *made[] = {&row, &gaps, &behind, &before, &nested};
    for (size_t i = 0; i < sizeof made / sizeof *made; i++) layout_free(made[i]);
}

/* Blocks of no items leave nothing; items of no data as well. */
static void check_nothing(void) {
    struct layout integer = element_of(4), none = made_of(&integer, NULL, 0);
    check_bounds(&none, 0, 0, 0, 0);
    struct layout empty = made_of(&integer, (struct block[]){{0, 7}}, 1);
    check_bounds(&empty, 0, 0, 0, 0);
    struct layout of_none = made_of(&none, (struct block[]){{INT_MAX, 3}}, 1);
    check_bounds(&of_none, 0, 0, 0, 0);
    CHECK(is_row(&of_none, 1000) && data_size(&of_none, SIZE_MAX) == 0);
    CHECK(whole_items(&none, 0) == 0 && whole_items(&none, 1) == -1);
    void *room;
    CHECK(data_row(&of_none, NULL, 5, &room) != NULL && room == NULL);
}

/* Sizes, places and bounds that aren't within 64 bits are refused. */
static void check_limits(void) {
    struct layout integer = element_of(4), other;
    struct layout large = made_of(&integer, (struct block[]){{INT_MAX, 0}}, 1), larger;
    check_bounds(&large, (size_t)INT_MAX * 4, 0, (ptrdiff_t)INT_MAX * 4, 1);
    larger = made_of(&large, (struct block[]){{1 << 29, 0}}, 1);
    CHECK(make_blocks(&larger, (struct block[]){{1 << 28, 0}}, 1, &other) == LAYOUT_TOO_LARGE);
    CHECK(make_blocks(&larger, (struct block[]){{1, 2}}, 1, &other) == LAYOUT_TOO_LARGE);
    CHECK(make_blocks(&larger, (struct block[]){{1, -3}}, 1, &other) == LAYOUT_TOO_LARGE);
    CHECK(data_size(&larger, 16) == SIZE_MAX && data_size(&large, 3) == (size_t)INT_MAX * 12);
    CHECK(make_vector(&integer, 2, 1, PTRDIFF_MAX - 3, &other) == LAYOUT_TOO_LARGE);
    CHECK(make_vector(&integer, 2, 1, PTRDIFF_MAX - 7, &other) == LAYOUT_MADE);
    CHECK(other.numbers.extent == PTRDIFF_MAX - 3);
    layout_free(&other);
    CHECK(make_vector(&integer, 2, 1, PTRDIFF_MIN, &other) == LAYOUT_TOO_LARGE);
    CHECK(make_vector(&integer, 2, 1, PTRDIFF_MIN + 4, &other) == LAYOUT_TOO_LARGE);
    CHECK(make_vector(&integer, 2, 1, PTRDIFF_MIN + 8, &other) == LAYOUT_MADE);
    layout_free(&other);
    CHECK(make_vector(&integer, 3, 1, PTRDIFF_MIN, &other) == LAYOUT_TOO_LARGE);
    CHECK(make_vector(&integer, 1, 1, PTRDIFF_MIN, &other) == LAYOUT_MADE && other.numbers.extent == 4);
    layout_free(&other);
    layout_free(&large);
    layout_free(&larger);
}

/* Markers stay with the items that have them (4.1.7); without them the upper bound is rounded to the alignment. */
static void check_markers(void) {
    struct layout integer = element_of(4), byte = element_of(1), pair, resized, two;
    struct making making;
    making_begin(&making);
    making_block(&making, &integer, 0, 1, 1);
    making_block(&making, &byte, 4, 1, 1);
    CHECK(making_end(&making, &pair) == LAYOUT_MADE);
    check_bounds(&pair, 5, 0, 8, 1);
    CHECK(pair.numbers.true_lower == 0 && pair.numbers.true_upper == 5 && pair.numbers.alignment == 4);
    making_begin(&making);
    making_block(&making, &pair, 0, 1, 1);
    making_resize(&making, -3, 20, 1);
    CHECK(making_end(&making, &resized) == LAYOUT_MADE);
    check_bounds(&resized, 5, -3, 20, 1);
    CHECK(resized.runs == pair.runs);
    two = made_of(&resized, (struct block[]){{2, 0}, {1, -4}}, 2);
    check_bounds(&two, 15, -83, 120, 2);
    CHECK(two.numbers.true_lower == -80 && two.numbers.true_upper == 25);
    layout_free(&two);
    making_begin(&making);
    making_resize(&making, PTRDIFF_MAX, 1, 1);
    CHECK(making_end(&making, &two) == LAYOUT_TOO_LARGE);
    layout_free(&pair);
    layout_free(&resized);
}

/* Vectors, and what is nested in them: as few runs as their blocks are regular, however many these are. */
static void check_vectors(void) {
    struct layout integer = element_of(4), row = vector_of(&integer, 1000, 3, 3);
    check_bounds(&row, 12000, 0, 12000, 1);
    CHECK(is_row(&row, 7));
    struct layout column = vector_of(&integer, INT_MAX, 1, 9);
    check_bounds(&column, (size_t)INT_MAX * 4, 0, ((ptrdiff_t)INT_MAX - 1) * 36 + 4, 1);
    CHECK(!is_row(&column, 1));
    struct layout back = vector_of(&integer, 3, 2, -4);
    check_bounds(&back, 24, -32, 40, 1);
    struct layout all = vector_of(&back, 1 << 20, 2, 5), again = vector_of(&all, 1 << 10, 1, -1);
    check_bounds(&all, (size_t)24 << 21, -32, (((1 << 20) - 1) * 5 + 2) * 40, 1);
    CHECK(again.runs->count == 1 && body_of(&again.runs->list[0]) == all.runs);
    struct layout one = vector_of(&all, 1, 1, 77), none = vector_of(&all, 0, 1, 5), empty = vector_of(&all, 5, 0, 5);
    CHECK(one.runs == all.runs && one.numbers.extent == all.numbers.extent && one.numbers.lower == all.numbers.lower);
    check_bounds(&none, 0, 0, 0, 0);
    check_bounds(&empty, 0, 0, 0, 0);
    struct layout too_large;
    CHECK(make_vector(&again, INT_MAX, 1, again.numbers.extent * 1000, &too_large) == LAYOUT_TOO_LARGE);
    CHECK(make_vector(&all, INT_MAX, INT_MAX, 0, &too_large) == LAYOUT_TOO_LARGE);
    struct layout *made[] = {&row, &column, &back, &all, &again, &one, &none, &empty};
    for (size_t i = 0; i < sizeof made / sizeof *made; i++) layout_free(made[i]);
}

/* ---- types of types, beside the list of the places of their bytes ---- */

enum { MOST_PLACES = 6000, LEVELS = 5, REACH = 100000 };

struct places {
    int count, list[MOST_PLACES];
    int lower, upper, alignment;
    bool has_lower, has_upper;
};

static unsigned seed;
static int drawn(int below) {
    seed = seed * 1664525u + 1013904223u;
    return (int)(seed >> 16) % below;
}

static int least_of(const struct places *of) {
    int least = of->count == 0 ? 0 : of->list[0];
    for (int i = 0; i < of->count; i++) least = of->list[i] < least ? of->list[i] : least;
    return least;
}
/* The byte behind the last one. */
static int most_of(const struct places *of) {
    int most = of->count == 0 ? 0 : of->list[0] + 1;
    for (int i = 0; i < of->count; i++) most = of->list[i] + 1 > most ? of->list[i] + 1 : most;
    return most;
}
static int lower_of(const struct places *of) { return of->has_lower ? of->lower : least_of(of); }
static int upper_of(const struct places *of) {
    int upper = most_of(of);
    if (of->has_upper) return of->upper;
    while ((upper - lower_of(of)) % of->alignment != 0) upper++;
    return upper;
}

/* Puts an item behind the others, moved by so many bytes; false where there are too many places. */
static bool add_item(struct places *made, const struct places *item, int at) {
    if (made->count + item->count > MOST_PLACES) return false;
    for (int i = 0; i < item->count; i++) made->list[made->count++] = at + item->list[i];
    if (item->count != 0 && item->alignment > made->alignment) made->alignment = item->alignment;
    if (item->has_lower) {
        if (!made->has_lower || at + item->lower < made->lower) made->lower = at + item->lower;
        made->has_lower = true;
    }
    if (item->has_upper) {
        if (!made->has_upper || at + item->upper > made->upper) made->upper = at + item->upper;
        made->has_upper = true;
    }
    return true;
}

/* Draws a type of an older one, and of an element; false where it would be too large to be listed. */
static bool draw_type(const struct layout *item, const struct places *of, struct making *making, struct places *made) {
    int extent = upper_of(of) - lower_of(of), count = drawn(4) + 1, length = drawn(3) + 1, size = 1 << drawn(4);
    int stride = drawn(3) == 0 ? drawn(9) - 4 : (drawn(9) - 4) * extent, constructor = drawn(4);
    struct layout other = element_of((size_t)size);
    struct places only = {.count = size, .alignment = size};
    for (int i = 0; i < size; i++) only.list[i] = i;
    *made = (struct places){.alignment = 1};
    making_begin(making);
    if (constructor == 0) making_blocks(making, item, 0, (size_t)count, (size_t)length, stride, 1);
    for (int i = 0; i < count; i++) {
        int at = constructor == 0 ? i * stride : drawn(60) - 20, own = constructor == 0 ? length : drawn(3);
        bool is_other = constructor == 2 && drawn(2) == 0;
        if (constructor == 3) at = 0, own = i == 0;
        if (constructor != 0 && is_other) making_block(making, &other, at, 1, (size_t)own);
        else if (constructor != 0) making_block(making, item, at, 1, (size_t)own);
        for (int piece = 0; piece < own; piece++)
            if (!add_item(made, is_other ? &only : of, at + piece * (is_other ? size : extent))) return false;
    }
    if (constructor != 3) return true;
    made->lower = drawn(40) - 20;
    made->upper = made->lower + drawn(60);
    made->has_lower = made->has_upper = true;
    making_resize(making, made->lower, made->upper - made->lower, 1);
    return true;
}

/* Bytes that differ from one place to the next. */
static void fill_row(unsigned char *row, int count) {
    for (int i = 0; i < count; i++) row[i] = (unsigned char)((unsigned)i * 2246822519u >> 13);
}

static bool is_within(const struct places *of, int items) {
    int extent = upper_of(of) - lower_of(of), way = (items - 1) * extent;
    return least_of(of) + (way < 0 ? way : 0) > -REACH && most_of(of) + (way > 0 ? way : 0) < REACH;
}

/* Packs items, and unpacks a part of what was packed: each byte has its place, and the last one of a place stays. */
static void check_rows(const struct layout *layout, const struct places *places, int items) {
    static unsigned char from[2 * REACH], into[2 * REACH], wanted[2 * REACH], row[4 * MOST_PLACES];
    int extent = upper_of(places) - lower_of(places), all = places->count * items, some = all == 0 ? 0 : drawn(all + 1);
    for (int i = 0; i < 2 * REACH; i++) from[i] = (unsigned char)(i * 2654435761u >> 11);
    memset(row, 0x55, sizeof row);
    pack(layout, from + REACH, (size_t)items, row);
    for (int i = 0; i < all; i++)
        CHECK(row[i] == from[REACH + i / places->count * extent + places->list[i % places->count]]);
    CHECK(row[all] == 0x55);
    memset(into, 0xaa, sizeof into);
    memset(wanted, 0xaa, sizeof wanted);
    fill_row(row, all);
    unpack(layout, row, (size_t)some, into + REACH);
    for (int i = 0; i < some; i++)
        wanted[REACH + i / places->count * extent + places->list[i % places->count]] = row[i];
    CHECK(memcmp(into, wanted, sizeof into) == 0);
    void *room;
    const void *found = data_row(layout, from + REACH, (size_t)items, &room);
    pack(layout, from + REACH, (size_t)items, row);
    CHECK(found != NULL && memcmp(found, row, (size_t)all) == 0);
    CHECK((room == NULL) == (is_row(layout, (size_t)items) || all == 0));
    free(room);
    CHECK(whole_items(layout, (size_t)all) == (all == 0 ? 0 : items));
}

static void check_type(const struct layout *layout, const struct places *places) {
    int lower = lower_of(places), items = drawn(6) + 1;
    CHECK(layout->numbers.size == (size_t)places->count && (layout->runs == NULL) == (places->count == 0));
    CHECK(layout->numbers.lower == lower && layout->numbers.extent == upper_of(places) - lower);
    CHECK(layout->numbers.true_lower == least_of(places) && layout->numbers.true_upper == most_of(places));
    if (items * places->count > 3 * MOST_PLACES) items = 1;
    if (is_within(places, items)) check_rows(layout, places, items);
}

/* Types of up to five levels. What a type was made of is freed before it. */
static void check_nesting(unsigned own) {
    static struct places places[LEVELS + 1];
    struct layout layouts[LEVELS + 1];
    struct making making;
    int level = 0;
    seed = own;
    int size = 1 << drawn(4);
    layouts[0] = element_of((size_t)size);
    places[0] = (struct places){.count = size, .alignment = size};
    for (int i = 0; i < size; i++) places[0].list[i] = i;
    while (level < LEVELS) {
        bool is_listed = draw_type(&layouts[level], &places[level], &making, &places[level + 1]);
        CHECK(making_end(&making, &layouts[level + 1]) == LAYOUT_MADE);
        if (!is_listed) {
            layout_free(&layouts[level + 1]);
            break;
        }
        level++;
    }
    for (int at = 1; at <= level; at++) {
        if (at == level || drawn(2) == 0) check_type(&layouts[at], &places[at]);
        layout_free(&layouts[at]);
    }
}

int main(void) {
    check_blocks();
    check_nothing();
    check_limits();
    check_markers();
    check_vectors();
    for (unsigned own = 1; own <= 1500; own++) check_nesting(own * 2654435761u);
    return unit_end();
}
