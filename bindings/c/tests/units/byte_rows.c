/* The bytes of buffers as runs of addresses, beside lists of every byte; and whether two share one. */
#include "../../src/byte_rows.h"
#include "../../src/makings.h"
#include "unit.h"

enum { BYTES = 400, FROM = 1000, STEP = 8 };

/* One item of so many bytes. */
static struct layout element_of(size_t size) {
    static struct run lists[17];
    static struct runs runs[17];
    lists[size] = (struct run){0, size, 1, 0, 0};
    runs[size] = (struct runs){1000000, 1, 0, (ptrdiff_t)size, 1, &lists[size]};
    return (struct layout){.numbers = {.size = size,
                                       .elements = 1,
                                       .extent = (ptrdiff_t)size,
                                       .true_upper = (ptrdiff_t)size,
                                       .alignment = 1,
                                       .kinds = 1,
                                       .kind = 1,
                                       .has_data = true},
                           .runs = &runs[size]};
}

/* Blocks of `length` items, each `stride` bytes behind the one before it. */
static struct layout vector_of(const struct layout *item, size_t count, size_t length, ptrdiff_t stride) {
    struct layout made;
    struct making making;
    making_begin(&making);
    making_blocks(&making, item, 0, count, length, stride, 1);
    CHECK(making_end(&making, &made) == LAYOUT_MADE);
    return made;
}

/* Which bytes of a memory items have: they are unpacked into it. */
static void mark(const struct layout *layout, ptrdiff_t at, size_t count, unsigned char *memory) {
    const size_t size = data_size(layout, count);
    unsigned char row[BYTES];
    memset(row, 1, sizeof row);
    CHECK(size <= sizeof row);
    unpack(layout, row, size, memory + at);
}

/* The same of runs, whose addresses begin with 0. */
static void mark_rows(const struct byte_rows *rows, unsigned char *memory) {
    for (size_t i = 0; i < rows->count; i++)
        for (uint64_t k = 0; k < rows->list[i].count; k++)
            memset(memory + rows->list[i].at + k * rows->list[i].stride, 1, rows->list[i].length);
}

static struct byte_rows rows_of(const struct layout *layout, ptrdiff_t at, size_t count) {
    struct byte_rows rows = {0};
    unsigned char wanted[2 * FROM + BYTES] = {0}, found[2 * FROM + BYTES] = {0};
    CHECK(add_byte_rows(&rows, layout, (void *)(uintptr_t)at, count));
    mark(layout, at, count, wanted);
    mark_rows(&rows, found);
    CHECK(memcmp(wanted, found, sizeof wanted) == 0);
    return rows;
}

/* Whether items at two places share a byte: as the lists of all bytes say. */
static bool share(const struct layout *one, ptrdiff_t at, const struct layout *other, ptrdiff_t other_at) {
    unsigned char first[2 * FROM + BYTES] = {0}, second[2 * FROM + BYTES] = {0};
    struct byte_rows a = rows_of(one, at, 1), b = rows_of(other, other_at, 1);
    bool is_wanted = false;
    mark(one, at, 1, first);
    mark(other, other_at, 1, second);
    for (size_t i = 0; i < sizeof first; i++) is_wanted |= first[i] && second[i];
    CHECK(share_bytes(&a, &b) == is_wanted && share_bytes(&b, &a) == is_wanted);
    free_byte_rows(&a);
    free_byte_rows(&b);
    return is_wanted;
}

static void test_places(const struct layout *layouts, size_t count) {
    int shared = 0, apart = 0;
    for (size_t i = 0; i < count; i++)
        for (size_t k = 0; k < count; k++)
            for (ptrdiff_t at = FROM - 100; at <= FROM + 100; at += 3)
                if (share(&layouts[i], FROM, &layouts[k], at)) shared++;
                else apart++;
    CHECK(shared > 100 && apart > 100);
}

static void test_runs(const struct layout *column) {
    struct byte_rows rows = rows_of(column, FROM, 3), none = {0};
    CHECK(rows.low == FROM && rows.count <= 3);
    CHECK(!share_bytes(&rows, &none) && !share_bytes(&none, &rows) && !share_bytes(&none, &none));
    CHECK(add_byte_rows(&none, column, NULL, 0) && none.count == 0);
    CHECK(add_byte_rows(&none, &(struct layout){.runs = NULL}, NULL, 5) && none.count == 0);
    free_byte_rows(&rows);
    /* Items that touch are one row, however many there are. */
    const struct layout byte = element_of(1);
    CHECK(add_byte_rows(&none, &byte, (void *)16, 1000000) && none.count == 1 && none.list[0].count == 1);
    CHECK(none.low == 16 && none.high == 1000016);
    free_byte_rows(&none);
}

int main(void) {
    const struct layout word = element_of(4);
    struct layout pair = vector_of(&word, 2, 1, 12);
    struct layout layouts[] = {word,
                                     vector_of(&word, 5, 1, STEP),
                                     vector_of(&word, 5, 2, 20),
                                     vector_of(&word, 5, 1, -STEP),
                                     vector_of(&pair, 6, 1, 32),
                                     vector_of(&pair, 3, 2, -40)};
    test_places(layouts, sizeof layouts / sizeof *layouts);
    test_runs(&layouts[1]);
    for (size_t i = 1; i < sizeof layouts / sizeof *layouts; i++) layout_free(&layouts[i]);
    layout_free(&pair);
    return unit_end();
}
