/* Worlds: their numbers, and where they are found. See worlds.h. */
#include "worlds.h"

#include "device.h"
#include "internal.h"
#include "launching.h"

#include <stdlib.h>

/* A world's number is turned in that of the job (docs/FORMAT.md). Of each other world one of the bits 62 to 20 is set
 * in it: the first one, the rank of its first member, and how many that one had drawn before. So worlds of a job have
 * different numbers, and two jobs whose numbers differ in the last twenty bits have none in common. */
#define PLANS_BIT (UINT64_C(1) << 63)
#define OTHER_BIT (UINT64_C(1) << 62)
enum { MEMBER_SHIFT = 52, MOST_MEMBERS = 1024, SERIAL_SHIFT = 20 };

/* In each world the communicator of all ranks has the number 0, and that of the rank alone 1. */
#define FIRST_TAKEN UINT64_C(3)
struct world first_world = {.taken = {FIRST_TAKEN}};

/* The others, each at the place that stands in its communicators' places; the first place is that of the first world.
 * Below `lowest` none is free. */
static struct world **places;
static uint32_t place_count, lowest = 1;

/* The same by their numbers: those with like ones are behind one another. */
enum { ROWS = 256 };
static struct world *rows[ROWS];
static struct world **row_of(uint64_t number) {
    return &rows[(number >> SERIAL_SHIFT ^ number >> MEMBER_SHIFT) % ROWS];
}

/* ---- numbers ---- */

uint64_t draw_number(void) {
    static uint64_t drawn;
    if (drawn > UINT32_MAX) return 0;
    return OTHER_BIT | (uint64_t)process.rank << MEMBER_SHIFT | drawn++ << SERIAL_SHIFT;
}

uint64_t job_of(const struct world *world, int kind) {
    return process.job ^ world->number ^ (kind == OF_PLANS ? PLANS_BIT : 0);
}

struct world *world_of_job(uint64_t job, int *kind) {
    const uint64_t turned = job ^ process.job;
    *kind = (turned & PLANS_BIT) != 0 ? OF_PLANS : OF_PROGRAMS;
    return world_numbered(turned & ~PLANS_BIT);
}

struct world *world_numbered(uint64_t number) {
    if (number == 0) return &first_world;
    struct world *it = *row_of(number);
    while (it != NULL && it->number != number) it = it->next;
    return it;
}

bool may_be_ours(uint64_t job) {
    const uint64_t number = (job ^ process.job) & ~PLANS_BIT;
    const uint64_t member = (number & ~OTHER_BIT) >> MEMBER_SHIFT;
    return (number & OTHER_BIT) != 0 && number << (64 - SERIAL_SHIFT) == 0 && member < (uint64_t)process.size;
}

/* ---- places ---- */

static struct world *world_at(uint64_t place) {
    return place == 0 ? &first_world : place < place_count ? places[place] : NULL;
}

struct world *world_of_place(uint32_t place) {
    return world_at(place >> PLACE_BITS);
}

/* The key of the null process is that of every engine. */
struct world *world_of_key(uint64_t key) {
    return key == UINT64_MAX ? &first_world : world_at(key >> KEY_BITS);
}

/* A place that no world has: 0 where there is none. */
static uint32_t free_place(void) {
    while (lowest < place_count && places[lowest] != NULL) lowest++;
    if (lowest < place_count) return lowest;
    uint32_t room = place_count == 0 ? 16 : 2 * place_count;
    struct world **made = room > UINT32_MAX >> PLACE_BITS ? NULL : realloc(places, room * sizeof *made);
    if (made == NULL) return 0;
    for (uint32_t at = place_count; at < room; at++) made[at] = NULL;
    places = made;
    place_count = room;
    return lowest;
}

/* ---- ranks ---- */

int first_rank(const struct world *world, int rank) {
    if (world->members == NULL) return rank;
    return rank >= 0 && rank < world->size ? world->members[rank] : -1;
}

int rank_in(const struct world *world, int first) {
    if (world->members == NULL) return first;
    for (int rank = 0; rank < world->size; rank++)
        if (world->members[rank] == first) return rank;
    return -1;
}

/* ---- opening and closing ---- */

/* How many engines there are, and of how many on one machine all share what they learn of how late ranks are. */
static int engine_count;
enum { FEW_ENGINES = 64 };

bool share_lateness(void) { return !process.is_apart && engine_count > FEW_ENGINES; }

uint32_t make_engine(struct world *world, int kind) {
    struct carried *own = &world->engines[kind];
    const struct engine_place place = {
        .job = job_of(world, kind),
        .message_limit = ENGINE_GREATEST_LIMIT,
        .rank = (uint16_t)world->rank,
        .size = (uint16_t)world->size,
        .incarnation = (uint16_t)process.incarnation,
        .is_near = share_lateness(),
        .frame_limit = process.frame,
        .room = kombazily_room(process.is_apart, device_heard_room(), process.frame, (uint16_t)process.size)};
    if (own->world != NULL) return 0;
    uint32_t number = kombazily_new(&own->rank, &place);
    if (number != 0) return number;
    own->world = world;
    engine_count++;
    return 0;
}

static void free_engines(struct world *world) {
    for (int kind = 0; kind < ENGINES; kind++) {
        drop_carried(&world->engines[kind]);
        if (world->engines[kind].world != NULL) engine_count--;
        kombazily_free(&world->engines[kind].rank);
        world->engines[kind].world = NULL;
    }
}

static void free_world(struct world *world) {
    free_engines(world);
    free(world->members);
    free(world);
}

struct world *open_world(uint64_t number, uint16_t *members, int size) {
    struct world *made = calloc(1, sizeof *made);
    const uint32_t place = made == NULL ? 0 : free_place();
    if (place == 0) {
        free(members);
        free(made);
        return NULL;
    }
    *made = (struct world){.base = place << PLACE_BITS, .number = number, .members = members, .size = size, .uses = 1};
    made->taken[0] = FIRST_TAKEN;
    made->rank = rank_in(made, process.rank);
    made->have_left = take_early(number);
    if (!need_engine(made, OF_PROGRAMS)) {
        free_world(made);
        return NULL;
    }
    places[place] = made;
    share_estimates();
    made->next = *row_of(number);
    *row_of(number) = made;
    take_kept(made);
    return made;
}

struct world *hold_world(struct world *world) {
    world->uses++;
    return world;
}

void end_world(struct world *world) {
    const uint32_t place = world->base >> PLACE_BITS;
    struct world **at = row_of(world->number);
    while (*at != world) at = &(*at)->next;
    *at = world->next;
    places[place] = NULL;
    if (place < lowest) lowest = place;
    free_world(world);
}

void close_worlds(void) {
    for (uint32_t place = 1; place < place_count; place++)
        if (places[place] != NULL) end_world(places[place]);
    free_engines(&first_world);
    free(places);
    places = NULL;
    place_count = 0;
    drop_kept();
    forget_early();
}
