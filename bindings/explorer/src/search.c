/* The search: which move is made next, and which run comes next, the explorer's static library decides (choices.h). See
 * shell.h. */
#include "choices.h"
#include "shell.h"

struct choices choices;

static void check(uint32_t number) {
    if (number != 0) fail(STATUS_START, "no memory for the search", "");
}

void search_open(void) { check(kombazily_choices_new(&choices)); }

void search_start_run(void) { check(kombazily_choices_start_run(&choices, (uint16_t)set.size)); }

void search_close(void) { kombazily_choices_free(&choices); }

const struct move *search_move(const struct move *moves, int count, bool *is_astray) {
    enum { TOO_MANY = 13, NO_MEMORY = 14 };
    uint64_t place = 0;
    const uint32_t next = kombazily_choices_choose(&choices, !set.has_no_sleep && set.mix < 0, &place);
    if (next == TOO_MANY) fail(STATUS_START, "a rank makes 16,777,216 choices and more", "");
    if (next == NO_MEMORY) fail(STATUS_START, "no memory for the search", "");
    *is_astray = next == CHOICES_ASTRAY;
    return next == CHOICES_MAKE && place < (uint64_t)count ? &moves[place] : NULL;
}

bool search_end_run(void) {
    uint64_t place = 0;
    kombazily_choices_clear(&choices);
    return kombazily_choices_choose(&choices, true, &place) != CHOICES_ASTRAY;
}

bool search_next(void) { return kombazily_choices_next_run(&choices); }
bool search_tried_all(void) { return kombazily_choices_tried_all(&choices); }
