/* Signatures: sizes and counts of elements, beside the list of all elements. */
#include "../../src/signatures.h"
#include "unit.h"

#include <stdint.h>

enum { KINDS = 4, MOST = 4000, LEVELS = 5 };

static const struct basic_type kinds[KINDS] = {
    {1, 1, 4, EXTERNAL_BOOLEAN}, {2, 1, 2, EXTERNAL_SIGNED}, {8, 1, 4, EXTERNAL_SIGNED}, {16, 2, 8, EXTERNAL_FLOAT}};

static struct signature *signature_of(int kind) {
    static struct signature made[KINDS];
    static struct signature_part parts[KINDS];
    const struct basic_type *own = &kinds[kind];
    parts[kind] = (struct signature_part){1, own, NULL};
    made[kind] = (struct signature){1000000, own->size, 1, own->numbers * own->external, 1, &parts[kind]};
    return &made[kind];
}

/* The kinds of all elements, in their order. */
struct list {
    int count, kinds[MOST];
};

static unsigned seed;
static int drawn(int below) {
    seed = seed * 1664525u + 1013904223u;
    return (int)(seed >> 16) % below;
}

static void check_counts(const struct signature *own, const struct list *all) {
    size_t bytes = 0, external = 0;
    for (int item = 0; item < 2; item++) {
        for (int i = 0; i < all->count; i++) {
            const struct basic_type *next = &kinds[all->kinds[i]];
            size_t found = 1;
            CHECK(elements_in(own, bytes) == item * all->count + i);
            CHECK(bytes_of_elements(own, (size_t)(item * all->count + i), &found) && found == bytes);
            if (next->size > 1) CHECK(elements_in(own, bytes + 1) == -1);
            bytes += next->size;
            external += next->numbers * next->external;
        }
    }
    CHECK(2 * own->size == bytes && 2 * own->external == external && own->elements == (size_t)all->count);
}

/* Signatures of signatures; what each was made of is released before it. */
static void check_nesting(unsigned own) {
    static struct list lists[LEVELS + 1];
    seed = own;
    int first = drawn(KINDS);
    struct signature *last = signature_of(first);
    last->uses++;
    lists[0] = (struct list){1, {first}};
    for (int level = 0; level < LEVELS; level++) {
        struct signature *made = NULL;
        struct list *from = &lists[level], *all = &lists[level + 1];
        size_t room = 0;
        bool fits = true;
        all->count = 0;
        for (int i = drawn(4); i >= 0; i--) {
            int count = drawn(4), kind = drawn(KINDS);
            bool is_old = drawn(2) == 0;
            if (all->count + count * (is_old ? from->count : 1) > MOST / 2) fits = false;
            if (!fits) break;
            CHECK(add_signature(&made, &room, is_old ? last : signature_of(kind), (size_t)count));
            for (int copy = 0; copy < count; copy++) {
                if (!is_old) all->kinds[all->count++] = kind;
                for (int at = 0; is_old && at < from->count; at++) all->kinds[all->count++] = from->kinds[at];
            }
        }
        release_signature(last);
        if (made == NULL) return;
        last = made;
        if (all->count < 600) check_counts(last, all);
        if (!fits) break;
    }
    release_signature(last);
}

/* Numbers beyond those of an int, and beyond what is told. */
static void check_large(void) {
    struct signature *made = NULL, *twice = NULL;
    size_t room = 0, bytes, most = PTRDIFF_MAX;
    CHECK(add_signature(&made, &room, signature_of(2), 3) && add_signature(&made, &room, signature_of(0), 1));
    room = 0;
    CHECK(add_signature(&twice, &room, made, (size_t)1 << 50));
    CHECK(twice->size == (size_t)25 << 50 && twice->elements == (size_t)4 << 50 && twice->count == 1);
    CHECK(elements_in(twice, ((size_t)25 << 49) + 8) == ((ptrdiff_t)4 << 49) + 1);
    CHECK(bytes_of_elements(twice, ((size_t)4 << 49) + 2, &bytes) && bytes == ((size_t)25 << 49) + 16);
    CHECK(!bytes_of_elements(twice, most, &bytes));
    CHECK(bytes_of_elements(signature_of(0), most, &bytes) && bytes == most);
    CHECK(!bytes_of_elements(signature_of(0), most + 1, &bytes));
    CHECK(bytes_of_elements(signature_of(1), most / 2, &bytes) && bytes == most - 1);
    CHECK(!bytes_of_elements(signature_of(1), most / 2 + 1, &bytes));
    CHECK(!bytes_of_elements(made, SIZE_MAX, &bytes));
    CHECK(elements_in(NULL, 0) == 0 && elements_in(NULL, 1) == -1);
    CHECK(bytes_of_elements(NULL, 0, &bytes) && bytes == 0 && !bytes_of_elements(NULL, 1, &bytes));
    release_signature(made);
    release_signature(twice);
}

int main(void) {
    check_large();
    for (unsigned own = 1; own <= 2000; own++) check_nesting(own * 2654435761u);
    return unit_end();
}
