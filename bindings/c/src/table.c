/* A table of objects by number: see table.h. */
#include "table.h"

#include <stdlib.h>

/* Makes room for twice as many objects. */
static bool table_grow(struct table *table) {
    int room = table->room == 0 ? 16 : 2 * table->room;
    if (room > PLACE_MASK) return false;
    struct table_place *places = realloc(table->places, (size_t)room * sizeof *places);
    if (places == NULL) return false;
    table->places = places;
    table->room = room;
    return true;
}

/* The number of what stands at a place. */
static int64_t number_at(const struct table *table, int place) {
    return (int64_t)table->places[place].generation << GENERATION_SHIFT | HANDLE(table->kind, place);
}

int64_t table_add(struct table *table, void *object) {
    int place = table->first_free;
    if (place >= 0) {
        table->first_free = table->places[place].next_free;
    } else {
        if (table->count == table->room && !table_grow(table)) return 0;
        place = table->count++;
        table->places[place].generation = 0;
    }
    table->places[place].object = object;
    table->places[place].next_free = -1;
    return number_at(table, place);
}

int64_t table_number(const struct table *table, uint32_t low) {
    uint32_t place = low & PLACE_MASK;
    if (low >> KIND_SHIFT != (uint32_t)table->kind || place >= (uint32_t)table->count) return 0;
    return table->places[place].object == NULL ? 0 : number_at(table, (int)place);
}

void *table_remove(struct table *table, int64_t handle) {
    void *object = table_find(table, handle);
    if (object == NULL) return NULL;
    int place = (int)(handle & PLACE_MASK);
    struct table_place *own = &table->places[place];
    uint32_t next = own->generation == LAST_GENERATION ? 0 : own->generation + 1;
    *own = (struct table_place){.object = NULL, .next_free = table->first_free, .generation = next};
    table->first_free = place;
    return object;
}

void table_free(struct table *table) {
    free(table->places);
    *table = (struct table)TABLE_OF(table->kind);
}
