/* Type signatures (MPI 3.1, 4.1.1): which basic types the data of an item are of, in their order. Pure functions of
 * their arguments. */
#ifndef KOMBAZILY_SIGNATURES_H
#define KOMBAZILY_SIGNATURES_H

#include <stdbool.h>
#include <stddef.h>

/* How a basic type is written in external32 (13.5.2). */
enum external_form {
    EXTERNAL_BYTES,
    EXTERNAL_SIGNED,
    EXTERNAL_UNSIGNED,
    EXTERNAL_BOOLEAN,
    EXTERNAL_FLOAT,      /* as many bytes there as here */
    EXTERNAL_LONG_DOUBLE /* of 80 bits here, of 128 there */
};

/* A basic type. A complex number has two numbers. */
struct basic_type {
    size_t size; /* bytes, as C has it */
    size_t numbers;
    size_t external; /* bytes of one number in external32 */
    enum external_form form;
};

/* Part of a signature: so many elements of one basic type, or copies of a body. A body has two copies at least, so
 * bodies are no deeper in one another than a size has bits. */
struct signature_part {
    size_t count;
    const struct basic_type *element; /* or NULL, where there is a body */
    struct signature *body;
};

/* The parts in their order; none is empty. Types that are made of one another share signatures. */
struct signature {
    size_t uses;     /* by types, and as bodies */
    size_t size;     /* bytes of data, below 2^62 */
    size_t elements; /* not more than that */
    size_t external; /* bytes in external32: not more than that */
    size_t count;
    struct signature_part *parts;
};

/* Puts so many copies of a signature behind the others of `*made`, which is NULL while there are none. Their sizes
 * together are below 2^62. `*room` is 0 at first, and begin_signature's own. False where there is no memory. */
bool add_signature(struct signature **made, size_t *room, struct signature *item, size_t count);
void release_signature(struct signature *signature);

/* How many elements so many bytes of items' data are, or -1: they end within an element (4.1.11). */
ptrdiff_t elements_in(const struct signature *signature, size_t bytes);
/* The bytes of so many elements of items' data; false where they are 2^63 or more, or items have no data. */
bool bytes_of_elements(const struct signature *signature, size_t elements, size_t *bytes);

#endif
