/* Tests src/carried.c: lists of engines. */
#include "../../src/carried.h"
#include "unit.h"

enum { MANY = 5 };

static struct carried engines[MANY];

/* Whether a list has just these engines, in this order. */
static bool has_just(enum carried_list list, size_t count, const int wanted[]) {
    const struct carried *it = first_of(list), *former = NULL;
    bool is_so = count_of(list) == count;
    for (size_t at = 0; at < count && is_so; at++) {
        is_so = it == &engines[wanted[at]] && it->in[list].is_in && it->in[list].former == former;
        former = it;
        it = is_so ? next_in(list, it) : NULL;
    }
    return is_so && it == NULL;
}

static void test_order(void) {
    CHECK(has_just(OUTGOING, 0, NULL));
    for (int at = 0; at < MANY; at++) put_into(OUTGOING, &engines[at]);
    CHECK(has_just(OUTGOING, 5, (int[]){0, 1, 2, 3, 4}));
    put_into(OUTGOING, &engines[1]);
    CHECK(has_just(OUTGOING, 5, (int[]){0, 1, 2, 3, 4}));
    CHECK(has_just(KEEPING, 0, NULL) && has_just(UNANSWERED, 0, NULL));
    for (int at = 0; at < MANY; at++) take_out_of(OUTGOING, &engines[at]);
    CHECK(has_just(OUTGOING, 0, NULL));
}

static void test_leaving(void) {
    for (int at = 0; at < MANY; at++) put_into(KEEPING, &engines[at]);
    take_out_of(KEEPING, &engines[2]);
    take_out_of(KEEPING, &engines[2]);
    CHECK(has_just(KEEPING, 4, (int[]){0, 1, 3, 4}));
    take_out_of(KEEPING, &engines[0]);
    CHECK(has_just(KEEPING, 3, (int[]){1, 3, 4}));
    take_out_of(KEEPING, &engines[4]);
    CHECK(has_just(KEEPING, 2, (int[]){1, 3}));
    put_into(KEEPING, &engines[2]);
    CHECK(has_just(KEEPING, 3, (int[]){1, 3, 2}));
    for (int at = 0; at < MANY; at++) take_out_of(KEEPING, &engines[at]);
    CHECK(has_just(KEEPING, 0, NULL));
}

static void test_turns(void) {
    turn_list(UNANSWERED);
    CHECK(has_just(UNANSWERED, 0, NULL));
    put_into(UNANSWERED, &engines[3]);
    turn_list(UNANSWERED);
    CHECK(has_just(UNANSWERED, 1, (int[]){3}));
    put_into(UNANSWERED, &engines[0]);
    put_into(UNANSWERED, &engines[4]);
    put_into(OUTGOING, &engines[0]);
    turn_list(UNANSWERED);
    CHECK(has_just(UNANSWERED, 3, (int[]){0, 4, 3}));
    CHECK(has_just(OUTGOING, 1, (int[]){0}));
    take_out_of(OUTGOING, &engines[0]);
    CHECK(has_just(UNANSWERED, 3, (int[]){0, 4, 3}));
}

int main(void) {
    test_order();
    test_leaving();
    test_turns();
    return unit_end();
}
