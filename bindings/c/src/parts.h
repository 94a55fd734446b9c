/* How a row goes that is longer than one collective takes: in parts, each of which is a collective of its own. A part
 * that has the greatest length is followed by another one, which may be empty. So where members' rows differ in their
 * lengths, there is a part that both have, and that differs. Pure functions. */
#ifndef KOMBAZILY_PARTS_H
#define KOMBAZILY_PARTS_H

#include <stdbool.h>
#include <stddef.h>

/* The greatest length of a part, in bytes: a multiple of `unit`, which is at most 16. So many blocks of it, at most
 * 1,024, come together at a member: 64 MiB of them at most. */
size_t longest_part(int blocks, size_t unit);

struct part {
    size_t from, length; /* in bytes */
};

/* The first part of a row of this length, and the one behind: false where there is none. */
static inline struct part first_part(size_t length, size_t longest) {
    return (struct part){0, length < longest ? length : longest};
}
static inline bool next_part(struct part *part, size_t length, size_t longest) {
    if (part->length < longest) return false;
    part->from += part->length;
    part->length = length - part->from < longest ? length - part->from : longest;
    return true;
}

#endif
