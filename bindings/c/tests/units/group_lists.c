/* Lists of members: their places, what is common, lists of places that are none; compared. */
#include "../../src/group_lists.h"
#include "unit.h"

#define MEMBERS(...)                                                                                                   \
    (struct members) { (const uint16_t[]){__VA_ARGS__}, (int)(sizeof((uint16_t[]){__VA_ARGS__}) / sizeof(uint16_t)) }

static void check_sets(void) {
    const struct members one = MEMBERS(4, 1, 2), other = MEMBERS(2, 0), third = MEMBERS(0, 3), none = {NULL, 0};
    CHECK(have_common(one, other) && have_common(other, one) && !have_common(one, third));
    CHECK(!have_common(one, none) && !have_common(none, one));
}

static void check_places(void) {
    const struct members group = MEMBERS(9, 3, 1023, 0);
    CHECK(place_in(group, 1023) == 2 && place_in(group, 0) == 3 && place_in(group, 1) == -1);
    CHECK(first_bad_place(group, (int[]){3, 0, 1, 2}, 4) == 4);
    CHECK(first_bad_place(group, (int[]){3, 4, -1}, 3) == 1);
    CHECK(first_bad_place(group, (int[]){0, -1}, 2) == 1);
    CHECK(first_bad_place(group, (int[]){0, 1, 0}, 3) == 2);
}

static void check_comparisons(void) {
    const struct members one = MEMBERS(1, 2, 3), turned = MEMBERS(3, 1, 2), more = MEMBERS(1, 2, 3, 4);
    const struct members other = MEMBERS(1, 2, 4), none = {NULL, 0};
    CHECK(are_same_lists(one, one) && are_same_members(one, one));
    CHECK(!are_same_lists(one, turned) && are_same_members(one, turned));
    CHECK(!are_same_members(one, more) && !are_same_members(more, one) && !are_same_members(one, other));
    CHECK(are_same_lists(none, none) && are_same_members(none, none) && !are_same_lists(none, one));
}

int main(void) {
    check_sets();
    check_places();
    check_comparisons();
    return unit_end();
}
