/* Tests src/table.c: tables of objects by number. */
#include "../../src/table.h"
#include "unit.h"

enum { MANY = 1000 };

static int objects[MANY];

static void test_numbers(void) {
    struct table table = TABLE_OF(KIND_REQUEST);
    CHECK(table_find(&table, 0) == NULL && table_find(&table, HANDLE(KIND_REQUEST, 0)) == NULL);
    int64_t handles[MANY];
    for (int i = 0; i < MANY; i++) handles[i] = table_add(&table, &objects[i]);
    for (int i = 0; i < MANY; i++) {
        CHECK(handles[i] == HANDLE(KIND_REQUEST, i) && handles[i] != 0);
        CHECK(table_find(&table, handles[i]) == &objects[i]);
    }
    CHECK(table_find(&table, HANDLE(KIND_DATATYPE, 3)) == NULL);
    CHECK(table_find(&table, HANDLE(KIND_REQUEST, MANY)) == NULL);
    CHECK(table_find(&table, -1) == NULL);
    table_free(&table);
    CHECK(table_find(&table, handles[0]) == NULL);
}

static void test_removal(void) {
    struct table table = TABLE_OF(KIND_GROUP);
    int64_t one = table_add(&table, &objects[1]), two = table_add(&table, &objects[2]);
    CHECK(table_remove(&table, one) == &objects[1]);
    CHECK(table_find(&table, one) == NULL && table_remove(&table, one) == NULL);
    CHECK(table_find(&table, two) == &objects[2]);
    /* The place of what is gone is taken first, with another number. */
    int64_t three = table_add(&table, &objects[3]);
    CHECK((three & PLACE_MASK) == (one & PLACE_MASK) && three != one && table_find(&table, three) == &objects[3]);
    CHECK(table_find(&table, one) == NULL && table_remove(&table, one) == NULL);
    CHECK(table_find(&table, three) == &objects[3]);
    CHECK(table_remove(&table, two) == &objects[2] && table_remove(&table, three) == &objects[3]);
    int64_t four = table_add(&table, &objects[4]), five = table_add(&table, &objects[5]);
    CHECK((four & PLACE_MASK) == (one & PLACE_MASK) && (five & PLACE_MASK) == (two & PLACE_MASK));
    CHECK(table_find(&table, two) == NULL && table_find(&table, three) == NULL);
    CHECK(table_find(&table, four) == &objects[4] && table_find(&table, five) == &objects[5]);
    table_free(&table);
}

/* A number comes again once its place has had all generations. */
static void test_generations(void) {
    struct table table = TABLE_OF(KIND_MESSAGE);
    int64_t first = table_add(&table, &objects[0]);
    CHECK(first == HANDLE(KIND_MESSAGE, 0) && table_remove(&table, first) == &objects[0]);
    table.places[0].generation = LAST_GENERATION;
    int64_t last = table_add(&table, &objects[1]);
    CHECK(last > 0 && table_find(&table, last) == &objects[1] && table_find(&table, first) == NULL);
    CHECK(table_remove(&table, last) == &objects[1]);
    CHECK(table_add(&table, &objects[2]) == first && table_find(&table, last) == NULL);
    table_free(&table);
}

/* The low half of a number names what lives now, as Fortran has it. */
static void test_low_halves(void) {
    struct table table = TABLE_OF(KIND_COMMUNICATOR);
    int64_t one = table_add(&table, &objects[0]);
    CHECK(table_number(&table, (uint32_t)one) == one);
    table_remove(&table, one);
    CHECK(table_number(&table, (uint32_t)one) == 0);
    int64_t two = table_add(&table, &objects[1]);
    CHECK((uint32_t)two == (uint32_t)one && table_number(&table, (uint32_t)one) == two && two != one);
    CHECK(table_number(&table, 0) == 0 && table_number(&table, HANDLE(KIND_COMMUNICATOR, 1)) == 0);
    CHECK(table_number(&table, HANDLE(KIND_GROUP, 0)) == 0);
    table_free(&table);
}

int main(void) {
    test_numbers();
    test_removal();
    test_generations();
    test_low_halves();
    return unit_end();
}
