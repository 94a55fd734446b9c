/* Lists of the members of groups (MPI 3.1, 6.3): pure functions. A member is a rank in MPI_COMM_WORLD, and stands in a
 * list once. Groups that are made of others are decided in engine_groups.h. */
#ifndef KOMBAZILY_GROUP_LISTS_H
#define KOMBAZILY_GROUP_LISTS_H

#include <stdbool.h>
#include <stdint.h>

struct members {
    const uint16_t *list;
    int size;
};

/* The place of a member, or -1. */
int place_in(struct members group, uint16_t member);

/* Whether a member is in both. */
bool have_common(struct members first, struct members second);

/* The first of the places that isn't in the group, or stands in the list a second time, by its index; `count` where
 * there is none. */
int first_bad_place(struct members group, const int *places, int count);

/* Whether they have the same members; whether in the same order, too. */
bool are_same_members(struct members first, struct members second);
bool are_same_lists(struct members first, struct members second);

#endif
