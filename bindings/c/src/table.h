/* A table of objects: each has a number that the program holds, as long as the object lives. */
#ifndef KOMBAZILY_TABLE_H
#define KOMBAZILY_TABLE_H
#include <stdbool.h>
#include <stddef.h>
#include <stdint.h>

/* A number has the object's place in its low bits, its kind above them, so that a number of another kind is told, and
 * above both the generation: how many objects had the place before. So a copy of a number whose object is gone names
 * nothing, also where another object has its place, until 2^31 have had it. 0 is no number. */
enum kind {
    KIND_COMMUNICATOR = 1,
    KIND_GROUP,
    KIND_DATATYPE,
    KIND_OPERATION,
    KIND_REQUEST,
    KIND_MESSAGE,
    KIND_ERRHANDLER,
    KIND_INFO,
    KIND_KEYVAL,
    KIND_WINDOW,
    KIND_FILE
};
enum { KIND_SHIFT = 26, GENERATION_SHIFT = 32, PLACE_MASK = (1 << KIND_SHIFT) - 1 };
#define LAST_GENERATION UINT32_C(0x7fffffff)
/* The number of the first object that has a place. */
#define HANDLE(kind, place) ((int64_t)((uint64_t)(kind) << KIND_SHIFT | (uint64_t)(place)))

struct table {
    enum kind kind;
    int count;      /* places that were ever taken */
    int room;       /* places that there is memory for */
    int first_free; /* the place that is free and is taken next, or -1 */
    struct table_place {
        void *object;
        int next_free;
        uint32_t generation;
    } * places;
};
#define TABLE_OF(of_kind)                                                                                              \
    { .kind = (of_kind), .first_free = -1 }

/* The number of a new object, or 0 where memory is refused (no number is 0). */
int64_t table_add(struct table *table, void *object);
/* The object of a number, or NULL: the number is of another kind, or its object is gone. */
static inline void *table_find(const struct table *table, int64_t handle) {
    uint32_t low = (uint32_t)handle, place = low & PLACE_MASK;
    if (low >> KIND_SHIFT != (uint32_t)table->kind || place >= (uint32_t)table->count) return NULL;
    const struct table_place *own = &table->places[place];
    return own->generation == (uint64_t)handle >> GENERATION_SHIFT ? own->object : NULL;
}
/* The number of the object at a place, or 0: there is none. The low half of a number names it as long as it lives. */
int64_t table_number(const struct table *table, uint32_t low);
/* Takes an object out: its place may be another's from now on, with another number. */
void *table_remove(struct table *table, int64_t handle);
/* Gives the memory of the table back; the objects are the caller's. */
void table_free(struct table *table);
#endif
