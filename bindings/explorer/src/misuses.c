/* Buffers that are used while an operation has them (MPI 3.1, 3.7.2, 3.10, 5.12): seen by the rank, and told here. */
#include "state.h"

#include <string.h>

/* What is told, of the call that began the operation, and the one that shows it. */
static struct finding *say(struct steps *s, int rank, enum misuse misuse, const char *begun, const char *now) {
    switch (misuse) {
    case MISUSE_OVERLAP:
        return note(s, rank, BUFFER_MISUSED,
                    "rank %d: the buffer of %s at %%1 overlaps that of %s at %%0, which isn't complete", rank, now,
                    begun);
    case MISUSE_WITHIN:
        return note(s, rank, BUFFER_MISUSED, "rank %d: two buffers of %s at %%0 overlap, and data come into one", rank,
                    now);
    case MISUSE_CHANGED:
        return note(s, rank, BUFFER_MISUSED, "rank %d: the buffer of %s at %%0 changed before %s at %%1 completed it",
                    rank, begun, now);
    case MISUSE_WRITTEN:
        return note(s, rank, BUFFER_MISUSED,
                    "rank %d: the buffer of %s at %%0 was written before %s at %%1 completed it", rank, begun, now);
    default:
        return note(s, rank, BUFFER_MISUSED,
                    "rank %d: the buffer of %s at %%0: its memory is gone before %s at %%1 completed it", rank, begun,
                    now);
    }
}

void note_misuse(struct steps *s, int rank) {
    struct rank *own = &s->ranks[rank];
    struct explorer_begun begun = {.frame_count = 0};
    if (own->ask.length == sizeof begun) memcpy(&begun, own->bytes, sizeof begun);
    struct place place = {.count = (uint32_t)begun.frame_count};
    if (place.count > EXPLORER_FRAMES) place.count = 0;
    memcpy(place.name, begun.name, sizeof place.name - 1);
    memcpy(place.frames, begun.frames, place.count * sizeof *begun.frames);
    struct finding *it = say(s, rank, (enum misuse)own->ask.call.order, place.name, own->ask.name);
    at_place(it, &place);
    at_place(it, &own->place);
    give_fact(s, rank, 0);
}
