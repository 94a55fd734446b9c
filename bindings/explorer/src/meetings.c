/* Collectives as all their members enter them: whether they enter the same one. See state.h. */
#include "engine_plans.h"
#include "state.h"

#include <stdlib.h>
#include <string.h>

/* ---- what differs ---- */

struct difference {
    const char *what;
    char first[80], second[80]; /* of whom they are: behind the name of the call */
};

static const char *name_of(uint32_t number, const char *const names[], size_t count) {
    return number < count && names[number] != NULL ? names[number] : "another one";
}

static const char *operation_word(uint32_t operation) {
    static const char *const names[] = {"none",     "MPI_MAX",    "MPI_MIN",   "MPI_SUM",  "MPI_PROD",
                                        "MPI_LAND", "MPI_LOR",    "MPI_LXOR",  "MPI_BAND", "MPI_BOR",
                                        "MPI_BXOR", "MPI_MINLOC", "MPI_MAXLOC"};
    if (operation == EXPLORER_OWN_OPERATION) return "a function of the program";
    return name_of(operation, names, sizeof names / sizeof *names);
}

static const char *basic_word(uint64_t basic) {
    static const char *const names[] = {NULL,     "int8",   "int16",  "int32", "int64",   "uint8",
                                        "uint16", "uint32", "uint64", "bytes", "float32", "float64"};
    return name_of((uint32_t)basic, names, sizeof names / sizeof *names);
}

/* Copies have two names each (6.4.2). */
static bool is_same_name(const struct entering *a, const struct entering *b) {
    static const char *const copies[] = {"MPI_Comm_dup", "MPI_Comm_idup"};
    for (int i = 0; i < 2; i++) {
        size_t length = strlen(copies[i]);
        if (strncmp(a->place.name, copies[i], length) == 0 && strncmp(b->place.name, copies[i], length) == 0)
            return true;
    }
    return strcmp(a->place.name, b->place.name) == 0;
}

/* Two blocks that should be alike: whether they aren't. */
static bool do_blocks_differ(const struct explorer_block *a, const struct explorer_block *b, struct difference *found) {
    bool is_other_type = a->bytes > 0 && b->bytes > 0 && a->basic != b->basic;
    if (a->bytes == b->bytes && !is_other_type) return false;
    found->what = is_other_type ? "another type" : "another count";
    return true;
}

/* A block in words, as `4 bytes`, or `4 bytes of int32` where the types differ. It stays until the next but one. */
static const char *block_words(const struct difference *found, const struct explorer_block *block) {
    static char words[2][48];
    static int at;
    bool is_type = strcmp(found->what, "another type") == 0;
    at = 1 - at;
    snprintf(words[at], sizeof words[at], "%lu bytes%s%s", (unsigned long)block->bytes, is_type ? " of " : "",
             is_type ? basic_word(block->basic) : "");
    return words[at];
}

/* The block that a member hands in for another one, or NULL; and the one that it wants of it. */
static const struct explorer_block *handed(const struct entering *it, int to) {
    uint32_t place = 0;
    bool is_none = false;
    switch (it->kind - ENTERS_PLAN) {
    case PLAN_ALLTOALL:
        place = (uint32_t)to;
        break;
    case PLAN_ALLGATHER:
        break;
    case PLAN_GATHER:
        is_none = to != it->root;
        break;
    case PLAN_SCATTER:
        place = (uint32_t)to;
        is_none = it->member != it->root;
        break;
    case PLAN_BROADCAST:
        is_none = it->member != it->root;
        break;
    default:
        is_none = true;
    }
    return is_none || place >= it->given ? NULL : &it->blocks[place];
}

static const struct explorer_block *wanted(const struct entering *it, int from) {
    uint32_t place = 0;
    bool is_none = false;
    switch (it->kind - ENTERS_PLAN) {
    case PLAN_ALLTOALL:
    case PLAN_ALLGATHER:
        place = (uint32_t)from;
        break;
    case PLAN_GATHER:
        place = (uint32_t)from;
        is_none = it->member != it->root;
        break;
    case PLAN_SCATTER:
    case PLAN_BROADCAST:
        is_none = from != it->root;
        break;
    default:
        is_none = true;
    }
    return is_none || place >= it->got ? NULL : &it->blocks[it->given + place];
}

static bool does_pair_differ(const struct entering *from, const struct entering *to, char *word_of_from,
                             char *word_of_to, struct difference *found) {
    enum { ROOM = sizeof found->first };
    const struct explorer_block *out = handed(from, to->member), *in = wanted(to, from->member);
    if (out == NULL || in == NULL || !do_blocks_differ(out, in, found)) return false;
    snprintf(word_of_from, ROOM, " with %s for rank %d", block_words(found, out), to->rank);
    snprintf(word_of_to, ROOM, " wanting %s of rank %d", block_words(found, in), from->rank);
    return true;
}

static bool is_reduction(uint32_t kind) {
    const uint32_t plan = kind - ENTERS_PLAN;
    return kind > ENTERS_PLAN && (plan == PLAN_REDUCE_SCATTER || plan == PLAN_SCAN || plan == PLAN_EXSCAN ||
                                  plan == PLAN_REDUCE || plan == PLAN_ALLREDUCE);
}

/* Members of a reduction hand in the same blocks; of other ones each gets of each what that one hands in for it. */
static bool do_plans_differ(const struct entering *a, const struct entering *b, struct difference *found) {
    if (!is_reduction(a->kind))
        return does_pair_differ(a, b, found->first, found->second, found) ||
               does_pair_differ(b, a, found->second, found->first, found);
    for (uint32_t i = 0; i < a->given && i < b->given; i++) {
        if (!do_blocks_differ(&a->blocks[i], &b->blocks[i], found)) continue;
        snprintf(found->first, sizeof found->first, " with %s", block_words(found, &a->blocks[i]));
        snprintf(found->second, sizeof found->second, " with %s", block_words(found, &b->blocks[i]));
        return true;
    }
    return false;
}

static bool do_rows_differ(const struct entering *a, const struct entering *b, struct difference *found) {
    if (!do_blocks_differ(&a->row, &b->row, found)) {
        if (a->row.basic == b->row.basic) return false;
        found->what = "another type";
    }
    snprintf(found->first, sizeof found->first, " with %s", block_words(found, &a->row));
    snprintf(found->second, sizeof found->second, " with %s", block_words(found, &b->row));
    return true;
}

/* What differs between two entries: false, nothing does. */
static bool do_differ(const struct entering *a, const struct entering *b, struct difference *found) {
    *found = (struct difference){.what = "another collective"};
    if (!is_same_name(a, b)) return true;
    if (a->root != b->root) {
        found->what = "another root";
        snprintf(found->first, sizeof found->first, " with root %d", a->root);
        snprintf(found->second, sizeof found->second, " with root %d", b->root);
        return true;
    }
    if (a->operation != b->operation) {
        found->what = "another operation";
        snprintf(found->first, sizeof found->first, " with %s", operation_word(a->operation));
        snprintf(found->second, sizeof found->second, " with %s", operation_word(b->operation));
        return true;
    }
    if (a->kind != b->kind) {
        found->what = "another type";
        return true;
    }
    return a->kind > ENTERS_PLAN ? do_plans_differ(a, b, found) : do_rows_differ(a, b, found);
}

/* ---- meetings ---- */

static void tell_difference(struct steps *s, const struct difference *it, const struct entering *a,
                            const struct entering *b) {
    struct finding *told = note(s, a->rank, DIFFERS, "%s: rank %d entered %s%s at %%0, rank %d %s%s at %%1", it->what,
                                a->rank, a->place.name, it->first, b->rank, b->place.name, it->second);
    at_place(told, &a->place);
    at_place(told, &b->place);
    s->has_mismatch = true;
}

static struct meeting *meeting_of(struct steps *s, uint64_t name, uint32_t index, const struct members *of) {
    const uint32_t size = (uint32_t)of->size;
    for (int i = 0; i < s->meeting_count; i++)
        if (s->meetings[i].name == name && s->meetings[i].index == index) return &s->meetings[i];
    s->meetings = room_for(s->meetings, (size_t)s->meeting_count + 1, sizeof *s->meetings);
    struct meeting *made = &s->meetings[s->meeting_count++];
    *made = (struct meeting){.name = name, .communicator = of->name, .index = index, .size = size};
    made->of = room_for(NULL, size, sizeof *made->of);
    return made;
}

static void free_meeting(struct meeting *it) {
    for (uint32_t i = 0; i < it->entered; i++) free(it->of[i].blocks);
    free(it->of);
}

void free_meetings(struct steps *s) {
    for (int i = 0; i < s->meeting_count; i++) free_meeting(&s->meetings[i]);
    free(s->meetings);
}

/* Tells of the first two members that entered otherwise, in the order of ranks. */
static void tell_meeting(struct steps *s, struct meeting *it) {
    struct difference difference;
    for (uint32_t i = 0; i < it->entered; i++)
        for (uint32_t k = i + 1; k < it->entered; k++) {
            if (it->is_told || !do_differ(&it->of[i], &it->of[k], &difference)) continue;
            it->is_told = true;
            tell_difference(s, &difference, &it->of[i], &it->of[k]);
        }
}

void steps_tell_collectives(struct steps *s) {
    for (int i = 0; i < s->meeting_count; i++) tell_meeting(s, &s->meetings[i]);
}

/* Adds a member, in the order of ranks: so what is told doesn't hang on who comes first. */
static void add_entering(struct meeting *it, const struct entering *own) {
    uint32_t place = it->entered++;
    for (; place > 0 && it->of[place - 1].rank > own->rank; place--) it->of[place] = it->of[place - 1];
    it->of[place] = *own;
}

uint32_t enter_meeting(struct steps *s, int rank, struct members *of, struct entering own) {
    const uint64_t name = own.persistent == 0 ? of->name : series_name(of, own.persistent);
    uint32_t *entered = own.persistent == 0 ? &of->entered : &series_of(&s->ranks[rank], name)->entered;
    const uint32_t index = ++*entered;
    if (of->size == 1) {
        free(own.blocks);
        return index;
    }
    struct meeting *it = meeting_of(s, name, index, of);
    own.rank = rank, own.member = of->rank;
    add_entering(it, &own);
    if (it->entered < it->size) return index;
    tell_meeting(s, it);
    free_meeting(it);
    *it = s->meetings[--s->meeting_count];
    return index;
}

/* ---- who never came ---- */

/* A rank in `world` that hasn't entered, or -1. */
static int absent_of(struct steps *s, const struct meeting *it) {
    for (int rank = 0; rank < s->options.size; rank++) {
        const struct rank *own = &s->ranks[rank];
        for (int at = 0; at < own->members_count; at++)
            if (own->members[at].is_made && own->members[at].name == it->communicator &&
                entered_by(own, it->name) < it->index)
                return rank;
    }
    return -1;
}

void tell_absent(struct steps *s) {
    steps_tell_collectives(s);
    bool has_failed[MOST_RANKS] = {false};
    for (int rank = 0; rank < s->options.size; rank++) has_failed[rank] = s->ranks[rank].has_failed;
    for (int i = 0; i < s->meeting_count; i++) {
        const struct meeting *it = &s->meetings[i];
        int absent = absent_of(s, it);
        const struct entering *first = &it->of[0];
        if (!kombazily_is_absence_told(has_failed, (size_t)s->options.size, absent >= 0, it->is_told)) continue;
        at_place(note(s, first->rank, NEVER_ENTERED, "rank %d entered %s at %%0, and rank %d never did", first->rank,
                      first->place.name, absent),
                 &first->place);
    }
}
