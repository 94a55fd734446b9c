/* Tests src/silence.c: ranks from which nothing has ever come. */
#include "../../src/silence.h"

#include "unit.h"

static const uint64_t SECOND = 1000000000;
static struct addresses job = {
    .size = 4, .first_port = 4000, .of_rank = {0x0a000001, 0x0a000001, 0x0a000002, 0x0a000003}};
static struct silence known;

static int silent(uint64_t begun, uint64_t now) { return first_silent(&known, &job, 0, begun * SECOND, now * SECOND); }

static void test_times(void) {
    known = (struct silence){.sent = {0}};
    CHECK(silent(1, 100) == -1);
    note_sent(&known, 2, 10 * SECOND);
    note_sent(&known, 2, 99 * SECOND);
    CHECK(silent(1, 14) == -1 && silent(1, 15) == 2 && silent(1, 16) == 2);
    CHECK(first_silent(&known, &job, 0, SECOND, 15 * SECOND - 1) == -1);
    /* The wait began later. */
    CHECK(silent(12, 15) == -1 && silent(12, 16) == -1 && silent(12, 17) == 2);
    /* A clock of before. */
    CHECK(silent(20, 15) == -1);
}

static void test_ranks(void) {
    known = (struct silence){.sent = {0}};
    for (int rank = 0; rank < 4; rank++) note_sent(&known, rank, SECOND);
    CHECK(silent(1, 50) == 2);
    note_came(&known, 2);
    CHECK(silent(1, 50) == 3);
    note_came(&known, 3);
    /* Rank 1 is on the same machine. */
    CHECK(silent(1, 50) == -1);
    CHECK(first_silent(&known, &job, 2, SECOND, 50 * SECOND) == 0);
    note_sent(&known, -1, SECOND);
    note_came(&known, -1);
    note_sent(&known, MOST_RANKS, SECOND);
    note_came(&known, MOST_RANKS);
}

int main(void) {
    test_times();
    test_ranks();
    return unit_end();
}
