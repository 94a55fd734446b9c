/* Where the ranks stand when the time is over: see steps.h. */
#include "state.h"

#include <string.h>

bool steps_awaits(const struct steps *s, int rank) {
    return s->ranks[rank].state == RANK_BLOCKED || s->ranks[rank].is_answered;
}

void steps_stands(struct steps *s, int rank, const struct explorer_ask *ask, const uint64_t *frames) {
    struct rank *own = &s->ranks[rank];
    own->place.count = ask->frame_count;
    if (ask->frame_count > 0) memcpy(own->place.frames, frames, ask->frame_count * sizeof *frames);
    own->calls = ask->calls;
}

/* A number with commas, and the ending of an ordinal: `1,022nd`. */
static void say_ordinal(uint32_t number, char *into, size_t room) {
    static const char *const ends[] = {"th", "st", "nd", "rd"};
    const uint32_t last = number % 10, teens = number % 100;
    const char *end = last <= 3 && (teens < 11 || teens > 13) ? ends[last] : ends[0];
    char digits[16];
    const int length = snprintf(digits, sizeof digits, "%u", (unsigned)number);
    size_t at = 0;
    for (int i = 0; i < length && at + 4 < room; i++) {
        if (i > 0 && (length - i) % 3 == 0) into[at++] = ',';
        into[at++] = digits[i];
    }
    snprintf(into + at, room - at, "%s", end);
}

static void tell_stand(struct steps *s, int rank) {
    const struct rank *own = &s->ranks[rank];
    char which[24];
    say_ordinal(own->calls, which, sizeof which);
    if (own->state == RANK_ENDED) {
        note(s, rank, STOOD_THERE, "rank %d had ended", rank);
    } else if (own->calls == 0) {
        note(s, rank, STOOD_THERE, "rank %d had made no call of MPI that others could notice", rank);
    } else if (!steps_awaits(s, rank)) {
        note(s, rank, STOOD_THERE, "rank %d computes; the last that was heard of it is %s, its %s call", rank,
             own->ask.name, which);
    } else {
        at_place(note(s, rank, STOOD_THERE, "rank %d is in %s at %%0, its %s call", rank, own->ask.name, which),
                 &own->place);
    }
}

void steps_tell_stands(struct steps *s) {
    for (int rank = 0; rank < s->options.size; rank++) tell_stand(s, rank);
}
