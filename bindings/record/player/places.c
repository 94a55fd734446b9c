/* Places in the recorded program: see play.h. */
#include "play.h"

#include <stdint.h>
#include <stdlib.h>
#include <string.h>

enum { MOST_FRAMES = 24 };

static struct place {
    uint64_t frames[MOST_FRAMES];
    uint32_t count;
} * places;
static int place_count;
static const char *name;
static int now;

void add_place(const struct line *line) {
    const int own = number(line->words[1]);
    if (own < 0) return;
    if (own >= place_count) {
        places = realloc(places, (size_t)(own + 1) * sizeof *places);
        if (places == NULL) give_up("no memory for a record", "");
        memset(places + place_count, 0, (size_t)(own + 1 - place_count) * sizeof *places);
        place_count = own + 1;
    }
    for (int i = 2; i < line->count && places[own].count < MOST_FRAMES; i++)
        places[own].frames[places[own].count++] = strtoull(line->words[i], NULL, 16);
}

void set_call(const struct line *line) {
    now = number(line->words[1]);
    name = line->words[2];
}

/* The library asks a program that has it for the place and the name of a call, in place of the call itself. */
uint32_t kombazily_played_place(uint64_t frames[MOST_FRAMES], const char **called);
uint32_t kombazily_played_place(uint64_t frames[MOST_FRAMES], const char **called) {
    if (name != NULL) *called = name;
    if (now >= place_count) return 0;
    memcpy(frames, places[now].frames, places[now].count * sizeof *frames);
    return places[now].count;
}
