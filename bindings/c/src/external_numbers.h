/* Numbers in external32 (MPI 3.1, 13.5.2): big-endian, of fixed sizes. Pure functions of their arguments. */
#ifndef KOMBAZILY_EXTERNAL_NUMBERS_H
#define KOMBAZILY_EXTERNAL_NUMBERS_H

#include "signatures.h"

/* Writes so many elements of a basic type, which stand in a row, in external32; and reads them. An integer that is
 * narrower there has its low bytes there; one that is read gets the sign that it has there. A truth value that isn't 0
 * is true. A long double of 80 bits and one of 128 differ in their fractions: what is read is cut to 80. */
void write_external(const struct basic_type *type, size_t count, const unsigned char *row, unsigned char *external);
void read_external(const struct basic_type *type, size_t count, const unsigned char *external, unsigned char *row);

#endif
