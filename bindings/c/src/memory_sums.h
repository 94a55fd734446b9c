/* Sums of memory that may be gone: a buffer of the program's that it has freed, or unmapped. */
#ifndef KOMBAZILY_MEMORY_SUMS_H
#define KOMBAZILY_MEMORY_SUMS_H

#include "byte_rows.h"

enum memory {
    MEMORY_SUMMED,
    MEMORY_GONE,  /* some of these bytes aren't there, or may not be read */
    MEMORY_CLOSED /* the system lets no process read its own memory so: nothing is known */
};

/* A sum of all the bytes, in their order: it is another one wherever eight bytes or fewer, which stand together,
 * differ. Nothing is read but through the system, so that what isn't there is no fault. */
enum memory sum_memory(const struct byte_rows *rows, uint64_t *sum);

/* Goes on with a sum, which is 0 at first: a pure function. */
uint64_t sum_bytes(uint64_t sum, const unsigned char *bytes, size_t length);

#endif
