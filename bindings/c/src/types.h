/* The types of C programs (MPI 3.1, 3.2.2 and 4.1): what they carry, where their data stand in memory. */
#ifndef KOMBAZILY_TYPES_H
#define KOMBAZILY_TYPES_H

#include "engine.h"
#include "makings.h"
#include "mpi.h"
#include "signatures.h"

#include <stdbool.h>
#include <stddef.h>
#include <stdint.h>

/* The families of basic types by which operations are defined (5.9.2). FAMILY_OTHER is that of packed data, of numbers
 * that C has no arithmetic for, and of types of several basic types. */
enum family {
    FAMILY_INTEGER,
    FAMILY_CHARACTER,
    FAMILY_FLOATING,
    FAMILY_LOGICAL,
    FAMILY_BYTE,
    FAMILY_ADDRESS,
    FAMILY_COMPLEX,
    FAMILY_PAIR,
    FAMILY_OTHER
};

/* The predefined pairs of a value and an index (5.9.4); each is the C struct of the two. */
enum pair {
    PAIR_NONE,
    PAIR_FLOAT_INT,
    PAIR_DOUBLE_INT,
    PAIR_LONG_INT,
    PAIR_2INT,
    PAIR_SHORT_INT,
    PAIR_LONG_DOUBLE_INT,
    PAIR_2INTEGER,
    PAIR_2REAL,
    PAIR_2DOUBLE_PRECISION
};

/* How a type was made (4.1.13). */
struct envelope {
    int combiner, integer_count, address_count, type_count;
    int *integers;
    MPI_Aint *addresses;
    struct datatype **types; /* held */
};

/* A type: items of basic types, whose data stand at the places of a layout. */
struct datatype {
    uint32_t basic;     /* what the engine carries it as: an engine_basic */
    size_t unit;        /* bytes of one element of the engine */
    enum family family; /* of its basic type */
    enum pair pair;     /* which one it is */
    const char *of;     /* the name of its basic type, or that it has several */
    struct layout layout;
    struct signature *signature; /* NULL where there are no data */
    struct envelope *envelope;   /* NULL of one that has a name in mpi.h */
    bool is_committed;
    bool is_predefined;
    int uses; /* by the program's handles, by types made of it, and by operations that aren't at their end */
    struct datatype *next; /* of those that are given back */
    char name[MPI_MAX_OBJECT_NAME];
};

/* The type of a handle, or NULL: there is none. */
struct datatype *datatype_of(MPI_Datatype handle);

/* A type stays as long as it is held, even where the program frees it (4.1.9). */
void hold_type(const struct datatype *type);
void release_type(const struct datatype *type);

/* A further handle of a type, which is the program's to free, and holds it; of a predefined type the one that it has.
 * MPI_DATATYPE_NULL where there is no memory. */
MPI_Datatype add_handle(struct datatype *type);

/* The predefined type that this combiner made of these integers (4.1.13), or MPI_DATATYPE_NULL. */
MPI_Datatype find_predefined(int combiner, const int *integers, int count);

/* The check of a type that may not be committed yet, of a call that has no communicator: 0, or the class of the error,
 * of which it has told. */
int check_any_type(const char *call, MPI_Datatype handle, struct datatype **found);

/* The elements of the engine that a receive of so many bytes has room for: as many at most as a message may have. */
static inline uint64_t engine_elements(const struct datatype *type, size_t bytes) {
    return (bytes < ENGINE_GREATEST_LIMIT ? bytes : ENGINE_GREATEST_LIMIT) / type->unit;
}

/* Gives all types back; the predefined ones stay. */
void close_types(void);
/* The numbers of those that the program made and never freed: how many; up to `room` are put there. */
uint32_t types_left(uint32_t *numbers, uint32_t room);

/* ---- predefined_types.c ---- */

/* The types that have names in mpi.h, by the places of their handles. */
enum { NAMED_TYPES = 65 };
extern struct datatype named_types[NAMED_TYPES];

#endif
