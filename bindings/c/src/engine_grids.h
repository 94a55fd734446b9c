/* Cartesian grids: functions of their arguments alone. What they answer is decided and proved in Rattle (the crate
 * cartesian_grids). A grid is the sizes of its dimensions, and whether each of them is a ring; ranks count its places
 * row by row. A refusal changes nothing. */
#ifndef KOMBAZILY_ENGINE_GRIDS_H
#define KOMBAZILY_ENGINE_GRIDS_H

#include <stdbool.h>
#include <stddef.h>
#include <stdint.h>

enum grid_number {
    GRID_NO_GRID = 91,      /* a size is 0, or there are 2^31 places or more */
    GRID_NO_PLACE = 92,     /* no such place: beyond the end of a dimension that is no ring, or no such dimension */
    GRID_NO_RANK = 93,      /* the rank isn't below the number of places */
    GRID_OTHER_LENGTH = 94, /* not one number for each dimension */
    GRID_NO_SIZES = 95      /* no sizes fill those that are given up to the number of nodes */
};

/* How many places there are: 0 or 91. */
uint32_t kombazily_grid_places(const uint32_t *sizes, size_t count, uint32_t *places);

/* The rank of the place with these coordinates; on a ring each number names a place, counted from 0. 0, 91 or 92. */
uint32_t kombazily_grid_rank(const uint32_t *sizes, size_t count, const bool *rings, size_t ring_count,
                             const int32_t *given, size_t given_count, uint32_t *rank);

/* Writes the coordinates of a rank: 0, 91, 93 or 94. */
uint32_t kombazily_grid_coordinates(const uint32_t *sizes, size_t count, uint32_t rank, uint32_t *into, size_t room);

/* The rank to which a displacement in one dimension leads: 0, 91, 93 or 92. */
uint32_t kombazily_grid_shift(const uint32_t *sizes, size_t count, const bool *rings, size_t ring_count, uint32_t rank,
                              size_t direction, int32_t displacement, uint32_t *to);

/* Of the part of the grid that has the dimensions that are kept, and in which the rank is: which part it is, and the
 * rank of the rank's place within it. 0, 91 or 93. */
uint32_t kombazily_grid_part(const uint32_t *sizes, size_t count, const bool *keeps, size_t keep_count, uint32_t rank,
                             uint32_t *part, uint32_t *within);

/* Puts sizes in the places of those that are 0, so that the product of all is `nodes`. They fall, and where any other
 * such list differs first from them it has a greater size: so the greatest is as small as it can be, then the second,
 * and so on. 0 or 95 (also where the nodes are 0, or 2^31 or more). */
uint32_t kombazily_grid_balance(uint32_t nodes, uint32_t *sizes, size_t count);

#endif
