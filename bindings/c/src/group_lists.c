/* Lists of the members of groups: see group_lists.h. */
#include "group_lists.h"

int place_in(struct members group, uint16_t member) {
    for (int at = 0; at < group.size; at++)
        if (group.list[at] == member) return at;
    return -1;
}

bool have_common(struct members first, struct members second) {
    for (int at = 0; at < first.size; at++)
        if (place_in(second, first.list[at]) >= 0) return true;
    return false;
}

/* Whether a place stands among the first ones of a list. */
static bool is_among(const int *places, int count, int place) {
    for (int at = 0; at < count; at++)
        if (places[at] == place) return true;
    return false;
}

int first_bad_place(struct members group, const int *places, int count) {
    for (int at = 0; at < count; at++)
        if (places[at] < 0 || places[at] >= group.size || is_among(places, at, places[at])) return at;
    return count;
}

bool are_same_members(struct members first, struct members second) {
    if (first.size != second.size) return false;
    for (int at = 0; at < first.size; at++)
        if (place_in(second, first.list[at]) < 0) return false;
    return true;
}

bool are_same_lists(struct members first, struct members second) {
    if (first.size != second.size) return false;
    for (int at = 0; at < first.size; at++)
        if (first.list[at] != second.list[at]) return false;
    return true;
}
