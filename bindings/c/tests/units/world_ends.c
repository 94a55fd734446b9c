/* Tests src/world_ends.c: when a world ends at its first member. The engine of plans is a list of messages here. */
#include "../../src/internal.h"
#include "../../src/worlds.h"

#include "unit.h"

enum { LEFT = 1, MOST = 8 };

struct world first_world;

/* The messages that have come, each that a member has left the world of a number. */
static uint64_t came[MOST];
static int count, ends;

/* The only world that is there, beside the first one. */
static struct world *there;

struct world *world_numbered(uint64_t number) {
    return there != NULL && there->number == number ? there : NULL;
}
int first_rank(const struct world *world, int rank) { return world == there ? rank : -1; }
bool kombazily_is_idle(struct engine_rank *rank) { return rank != NULL; }

void end_world(struct world *world) {
    CHECK(world == there);
    ends++;
    there = NULL;
}

void ask_plans(const struct engine_call *call, const void *data, size_t len, struct engine_answer *answer) {
    const bool has_one = count > 0 && call->tag == LEFT;
    (void)data;
    (void)len;
    *answer = (struct engine_answer){.kind = ENGINE_STARTED, .outcome = ENGINE_RECEIVED};
    if (call->kind == ENGINE_IPROBE) answer->kind = has_one ? ENGINE_PROBED : ENGINE_NOTHING;
}

size_t take_from_plans(uint8_t *into, size_t len) {
    CHECK(count > 0 && len == sizeof *came);
    memcpy(into, &came[--count], len);
    return len;
}

/* A world of three, of which this is the first one, as open_world makes it. */
static struct world open_one(uint64_t number) {
    return (struct world){.number = number, .size = 3, .uses = 1, .have_left = take_early(number)};
}

/* The others leave it while it is there. */
static void test_order(void) {
    struct world world = open_one(7);
    there = &world;
    release_world(&world);
    CHECK(ends == 0);
    came[count++] = 7;
    worlds_go_on();
    CHECK(ends == 0);
    came[count++] = 7;
    worlds_go_on();
    CHECK(ends == 1 && count == 0);
}

/* They have left it before this one heard of it, while it waits for the end of another one. */
static void test_early(void) {
    struct world other = open_one(8), world = open_one(0);
    there = &other;
    release_world(&other);
    for (int member = 1; member < 3; member++) came[count++] = 9, came[count++] = 8;
    worlds_go_on();
    CHECK(ends == 2 && count == 0);
    world = open_one(9);
    there = &world;
    release_world(&world);
    CHECK(ends == 3);
    CHECK(take_early(9) == 0 && take_early(8) == 0);
}

/* What is known of worlds that never come is given back. */
static void test_forgotten(void) {
    struct world world = open_one(5);
    there = &world;
    release_world(&world);
    came[count++] = 11;
    came[count++] = 12;
    worlds_go_on();
    CHECK(take_early(11) == 1 && take_early(11) == 0);
    forget_early();
    CHECK(take_early(12) == 0 && ends == 3);
}

int main(void) {
    test_order();
    test_early();
    test_forgotten();
    return unit_end();
}
