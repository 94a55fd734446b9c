/* Names of objects (MPI 3.1, 6.8). */
#ifndef KOMBAZILY_NAMES_H
#define KOMBAZILY_NAMES_H

#include "mpi.h"

#include <string.h>

/* Copies a name, as much of it as fits with the byte behind it into MPI_MAX_OBJECT_NAME; answers its length. */
static inline int copy_name(char *into, const char *name) {
    const char *end = memchr(name, '\0', MPI_MAX_OBJECT_NAME - 1);
    size_t length = end == NULL ? MPI_MAX_OBJECT_NAME - 1 : (size_t)(end - name);
    memmove(into, name, length);
    into[length] = '\0';
    return (int)length;
}

#endif
