/* Lists of engines: see carried.h. */
#include "carried.h"

static struct {
    struct carried *first, *last;
    size_t count;
} lists[CARRIED_LISTS];

struct carried *first_of(enum carried_list list) {
    return lists[list].first;
}

struct carried *next_in(enum carried_list list, const struct carried *own) {
    return own->in[list].next;
}

size_t count_of(enum carried_list list) { return lists[list].count; }

void put_into(enum carried_list list, struct carried *own) {
    if (own->in[list].is_in) return;
    own->in[list] = (struct carried_place){.former = lists[list].last, .is_in = true};
    if (lists[list].last != NULL) lists[list].last->in[list].next = own;
    else lists[list].first = own;
    lists[list].last = own;
    lists[list].count++;
}

void take_out_of(enum carried_list list, struct carried *own) {
    const struct carried_place place = own->in[list];
    if (!place.is_in) return;
    if (place.former != NULL) place.former->in[list].next = place.next;
    else lists[list].first = place.next;
    if (place.next != NULL) place.next->in[list].former = place.former;
    else lists[list].last = place.former;
    lists[list].count--;
    own->in[list] = (struct carried_place){.is_in = false};
}

void turn_list(enum carried_list list) {
    struct carried *own = lists[list].first;
    if (own == lists[list].last) return;
    take_out_of(list, own);
    put_into(list, own);
}
