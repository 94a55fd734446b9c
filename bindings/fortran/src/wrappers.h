/* How Fortran's arguments become those of C and back (MPI 3.1, 17.2): for the wrappers, which tools/fortran_calls
 * makes, and for those that are written by hand. INTEGER, LOGICAL and the kinds are gfortran's: kinds.f90 looks at
 * them. */
#ifndef KOMBAZILY_WRAPPERS_H
#define KOMBAZILY_WRAPPERS_H

#include "for_fortran.h"
#include "mpi.h"

#include <limits.h>
#include <stdbool.h>
#include <stdint.h>
#include <stdlib.h>
#include <string.h>

_Static_assert(sizeof(MPI_Fint) == 4 && sizeof(int) == 4, "an INTEGER is an int");
_Static_assert(sizeof(MPI_Aint) == 8 && sizeof(MPI_Count) == 8 && sizeof(MPI_Offset) == 8, "INTEGER(KIND=8)");
_Static_assert(sizeof(MPI_Status) == 24, "MPI_STATUS_SIZE is 6");
enum { STATUS_SIZE = 6 };

/* A function mpi_x_ is another name of pmpi_x_, and may be a program's own (14.2.1). */
#define SECOND_NAME(name) _Pragma(NAME_TEXT(weak name = p##name))
#define NAME_TEXT(words) #words

/* ---- the common blocks of mpif.h: the addresses of what stands in the place of an argument ---- */

struct places {
    MPI_Fint bottom, in_place, status_ignore[STATUS_SIZE], statuses_ignore[STATUS_SIZE], errcodes_ignore[1];
    MPI_Fint unweighted[1], weights_empty[1];
};
extern struct places mpi_f_places_;

/* ---- who calls ---- */

struct noted {
    const void **at, *before;
};
static inline struct noted note_caller(const void *caller) {
    const void **at = MPI_F_LIBRARY->caller();
    struct noted noted = {at, *at};
    *at = caller;
    return noted;
}
static inline void forget_caller(const struct noted *noted) { *noted->at = noted->before; }
/* To stand first in each wrapper: errors and waits name the line of the program that called it. */
#define NOTE_FORTRAN_CALLER()                                                                                          \
    __attribute__((cleanup(forget_caller), unused)) const struct noted noted = note_caller(__builtin_return_address(0))

/* ---- room ---- */

static inline void give_back(void *at) { free(*(void **)at); }
/* Room for a list, which is given back at the end of the block; NULL where there is none. A negative count, of which
 * the call itself will tell, is none. */
#define ROOM(type, name, count)                                                                                        \
    __attribute__((cleanup(give_back))) type *name = calloc((count) > 0 ? (size_t)(count) : 1, sizeof(type))
/* What a call answers that has no room. */
static inline MPI_Fint no_room(const char *call) {
    return MPI_F_LIBRARY->raise(call, MPI_ERR_NO_MEM, "no memory for its arguments");
}

/* ---- data ---- */

static inline void *choice(const void *data) {
    if (data == &mpi_f_places_.bottom) return MPI_BOTTOM;
    return data == &mpi_f_places_.in_place ? MPI_IN_PLACE : (void *)data;
}
static inline int *weights_of(const MPI_Fint *weights) {
    if (weights == mpi_f_places_.unweighted) return MPI_UNWEIGHTED;
    return weights == mpi_f_places_.weights_empty ? MPI_WEIGHTS_EMPTY : (int *)weights;
}
static inline int *codes_of(MPI_Fint *codes) {
    return codes == mpi_f_places_.errcodes_ignore ? MPI_ERRCODES_IGNORE : codes;
}

/* ---- what a call answers in: what it leaves alone stays as it was ---- */

enum { UNTOUCHED = INT_MIN };

/* .TRUE. is 1. */
static inline void put_logical(MPI_Fint *into, int flag) {
    if (flag != UNTOUCHED) *into = flag != 0;
}
/* Indexes of requests begin with 1; MPI_UNDEFINED is negative. */
static inline MPI_Fint from_one(int index) { return index >= 0 ? index + 1 : index; }
static inline void put_index(MPI_Fint *into, int index) {
    if (index != UNTOUCHED) *into = from_one(index);
}
static inline void put_indexes(MPI_Fint *indexes, int count) {
    for (int i = 0; i < count; i++) indexes[i] = from_one(indexes[i]);
}

/* Handles: those of one kind, by itself and in a list. */
#define HANDLES(Type, name, Kind)                                                                                      \
    static inline void put_##name(MPI_Fint *into, Type handle) {                                                       \
        if (handle != (Type)(intptr_t)UNTOUCHED) *into = MPI_##Kind##_c2f(handle);                                     \
    }                                                                                                                  \
    static inline void take_##name##s(Type *into, const MPI_Fint *handles, int count) {                                \
        for (int i = 0; i < count; i++) into[i] = MPI_##Kind##_f2c(handles[i]);                                        \
    }                                                                                                                  \
    static inline void put_##name##s(MPI_Fint *into, const Type *handles, int count) {                                 \
        for (int i = 0; i < count; i++) into[i] = MPI_##Kind##_c2f(handles[i]);                                        \
    }
HANDLES(MPI_Comm, comm, Comm)
HANDLES(MPI_Datatype, type, Type)
HANDLES(MPI_Errhandler, errhandler, Errhandler)
HANDLES(MPI_File, file, File)
HANDLES(MPI_Group, group, Group)
HANDLES(MPI_Info, info, Info)
HANDLES(MPI_Message, message, Message)
HANDLES(MPI_Op, op, Op)
HANDLES(MPI_Request, request, Request)
HANDLES(MPI_Win, win, Win)

/* ---- statuses: INTEGERs in the same memory, which may lie between two places of a status of C ---- */

static inline MPI_Status *take_status(MPI_Status *into, const MPI_Fint *status) {
    if (status == mpi_f_places_.status_ignore) return MPI_STATUS_IGNORE;
    return memcpy(into, status, sizeof *into);
}
static inline void put_status(MPI_Fint *into, const MPI_Status *status) {
    if (into != mpi_f_places_.status_ignore) memcpy(into, status, sizeof *status);
}
static inline MPI_Status *take_statuses(MPI_Status *into, const MPI_Fint *statuses, int count) {
    if (statuses == mpi_f_places_.statuses_ignore) return MPI_STATUSES_IGNORE;
    if (count > 0) memcpy(into, statuses, (size_t)count * sizeof *into);
    return into;
}
static inline void put_statuses(MPI_Fint *into, const MPI_Status *statuses, int count) {
    if (into != mpi_f_places_.statuses_ignore && count > 0) memcpy(into, statuses, (size_t)count * sizeof *statuses);
}

/* ---- texts: blanks behind them in Fortran, a byte in C ---- */

/* A copy for C without the blanks behind it, or in front of it, too; NULL: there is no memory. */
char *text_of(const char *text, size_t length);
char *bare_text_of(const char *text, size_t length);
/* To stand where such a copy is made: it is given back at the end of the block. */
#define TEXT(name, made) __attribute__((cleanup(give_back))) char *name = made
/* As much of a text of C as fits, and blanks. */
void put_text(char *into, size_t length, const char *text);

#endif
