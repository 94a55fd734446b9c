/* Groups of ranks (MPI 3.1, 6.3): functions of their arguments alone. What they answer is decided and proved in Rattle
 * (the crate groups). A group is the list of its members, none of them twice. A refusal changes nothing. */
#ifndef KOMBAZILY_ENGINE_GROUPS_H
#define KOMBAZILY_ENGINE_GROUPS_H

#include <stddef.h>
#include <stdint.h>

/* All of the first, then those of the second that aren't in the first; those of the first that are in the second;
 * those of the first that aren't. */
enum group_of_two { GROUP_UNION = 1, GROUP_INTERSECTION, GROUP_DIFFERENCE };

/* The members at these places, in their order; all but them, in the group's order. */
enum group_of_places { GROUP_INCL = 1, GROUP_EXCL };

enum group_number {
    GROUP_NO_PLACE = 5, /* a place isn't in the group */
    GROUP_REPEATED = 8, /* a member or a place stands in a list twice */
    GROUP_NO_MEMORY = 14,
    GROUP_NO_ROOM = 94 /* not all members have room */
};

/* Writes the members of a group that is made of two, and how many they are: 0, 8, 14 or 94. */
uint32_t kombazily_group_of_two(uint32_t kind, const uint16_t *first, size_t first_size, const uint16_t *second,
                                size_t second_size, uint16_t *into, size_t room, uint64_t *count);

/* The same of some members of a group: 0, 5, 8, 14 or 94. */
uint32_t kombazily_group_of_places(uint32_t kind, const uint16_t *group, size_t size, const uint16_t *places,
                                   size_t place_count, uint16_t *into, size_t room, uint64_t *count);

#endif
