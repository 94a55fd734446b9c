/* How calls make types (MPI 3.1, 4.1): by copies of older ones. */
#ifndef KOMBAZILY_TYPE_MAKERS_H
#define KOMBAZILY_TYPE_MAKERS_H

#include "types.h"

/* A type while a call makes it. */
struct maker {
    const char *call;
    struct datatype *type;
    struct making making;
    size_t room; /* of the signature */
};

/* Begins a type, whose envelope will have so many entries. Where there is no memory, what follows does nothing. */
void maker_begin(struct maker *maker, const char *call, int combiner, size_t integers, size_t addresses, size_t types);
/* Puts entries into its envelope. */
void maker_note(struct maker *maker, int integer);
void maker_note_all(struct maker *maker, const int *integers, int count);
void maker_note_addresses(struct maker *maker, const MPI_Aint *addresses, int count);
void maker_note_type(struct maker *maker, struct datatype *type);
/* Adds a block of a type, or blocks of it, as making_block and making_blocks do; all of it. */
void maker_block(struct maker *maker, const struct datatype *item, ptrdiff_t at, ptrdiff_t unit, size_t length);
void maker_blocks(struct maker *maker, const struct datatype *item, ptrdiff_t at, size_t count, size_t length,
                  ptrdiff_t stride, ptrdiff_t unit);
void maker_copy(struct maker *maker, const struct datatype *item);
/* Ends making: 0 and the type, or the class of the error, of which it has told; and gives the type a handle. */
int maker_end(struct maker *maker, struct datatype **made);
int maker_hand_out(struct maker *maker, MPI_Datatype *newtype);

/* What the calls that make types check first: that the result can be told, and the older type. */
int check_making(const char *call, MPI_Datatype oldtype, const MPI_Datatype *newtype, struct datatype **old);
/* That a number isn't negative; that lists of so many are there. `name` is the argument's. */
int check_number(const char *call, const char *name, int number);
int check_list(const char *call, const char *name, const void *list, int count);

#endif
