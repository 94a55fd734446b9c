/* Rows that go in parts, beside an engine that is played here: one member of three, whose parts have 48 bytes. */
#include "../../src/rows.h"

#include "../../src/agreement.h"
#include "../../src/internal.h"
#include "../../src/parts.h"
#include "../../src/turns.h"
#include "../../src/wait_lines.h"
#include "unit.h"

enum { MEMBERS = 3, PART = 48, LONGEST = 200 };

/* What the members' rows are, how far they have gone, in how many collectives, and what the last one brought. */
static struct {
    unsigned char rows[MEMBERS][LONGEST], brought[MEMBERS * LONGEST];
    size_t from;
    int calls;
} played;
static struct communicator comm = {.size = MEMBERS};

struct process process;
size_t longest_part(int blocks, size_t unit) { return (void)blocks, (void)unit, (size_t)PART; }
void note_entry(const struct engine_call *entry) { (void)entry; }
void note_told(uint32_t place) { (void)place; }
struct communicator *communicator_at(uint32_t place) {
    return (void)place, &comm;
}
uint32_t begin_turn(const struct communicator *of, int root) { return (void)of, (void)root, 0u; }
void end_turn(void) {}
void begin_wait(const struct wait *it) { (void)it; }
void end_wait(void) {}
void await_finish(struct engine_answer *answer) { (void)answer; }
size_t take_from_engine(uint64_t first, uint8_t *into, size_t len) {
    memcpy(into, played.brought + first, len);
    return len;
}

/* The members' blocks of this length, one behind the other, with so many bytes of 0 behind each. */
static void bring_blocks(size_t length, size_t behind) {
    memset(played.brought, 0, sizeof played.brought);
    for (size_t member = 0; member < MEMBERS; member++)
        memcpy(played.brought + member * (length + behind), played.rows[member] + played.from, length);
}

static void bring_sums(size_t length) {
    for (size_t at = 0; at < length; at++) {
        played.brought[at] = 0;
        for (int member = 0; member < MEMBERS; member++) played.brought[at] += played.rows[member][played.from + at];
    }
}

/* Looks at what a member hands in, and brings what it gets. */
void call_engine(const struct engine_call *call, const void *data, size_t len, struct engine_answer *answer) {
    const bool is_root = comm.rank == call->peer, is_fold = call->kind == ENGINE_GATHER && call->operation != 0;
    const size_t behind = is_fold ? call->operation : 0, length = call->count - behind;
    const unsigned char *own = played.rows[comm.rank] + played.from;
    CHECK(length <= PART && played.from + length <= LONGEST);
    bring_blocks(length, behind);
    if (call->kind == ENGINE_SCATTER) {
        CHECK(call->has_data == is_root && len == (is_root ? MEMBERS * length : 0));
        if (is_root && len != 0) CHECK(memcmp(data, played.brought, len) == 0);
        memcpy(played.brought, own, length);
    } else if (call->kind == ENGINE_BCAST) {
        CHECK(call->has_data == is_root && len == (is_root ? length : 0));
        if (is_root && len != 0) CHECK(memcmp(data, own, len) == 0);
        memcpy(played.brought, played.rows[call->peer] + played.from, length);
    } else {
        CHECK(len == length + behind && (length == 0 || memcmp(data, own, length) == 0));
        if (call->kind != ENGINE_GATHER) bring_sums(length);
    }
    played.from += length;
    played.calls++;
    *answer = (struct engine_answer){.kind = ENGINE_LEFT};
}

static void begin(void) { played.from = 0, played.calls = 0; }
static void check_end(uint32_t number, size_t length) {
    CHECK(number == 0 && played.from == length && played.calls == (int)(length / PART) + 1);
}

/* Whether the blocks of all stand in rank order. */
static bool are_blocks(const unsigned char *all, size_t length) {
    for (size_t member = 0; member < MEMBERS; member++)
        if (memcmp(all + member * length, played.rows[member], length) != 0) return false;
    return true;
}

static void check_data(struct collective of, size_t length) {
    unsigned char row[LONGEST] = {0}, all[MEMBERS * LONGEST] = {0};
    const bool is_root = comm.rank == of.root;
    if (is_root) memcpy(row, played.rows[of.root], length);
    begin();
    check_end(broadcast_row(of, row, length), length);
    CHECK(memcmp(row, played.rows[of.root], length) == 0);
    begin();
    check_end(gather_rows(of, played.rows[comm.rank], length, all), length);
    CHECK(!is_root || are_blocks(all, length));
    begin();
    check_end(scatter_rows(of, all, length, row), length);
    CHECK(memcmp(row, played.rows[comm.rank], length) == 0);
    begin();
    check_end(scatter_rows(of, all, length, NULL), length);
}

static void check_sums(struct collective of, size_t length) {
    unsigned char row[LONGEST] = {0};
    begin();
    check_end(allreduce_rows(of, ENGINE_SUM, played.rows[comm.rank], length, row), length);
    for (size_t at = 0; at < length; at++)
        CHECK(row[at] == (unsigned char)(played.rows[0][at] + played.rows[1][at] + played.rows[2][at]));
    memset(row, 0, sizeof row);
    begin();
    check_end(reduce_rows(of, ENGINE_SUM, played.rows[comm.rank], length, row), length);
    for (size_t at = 0; comm.rank != of.root && at < length; at++) CHECK(row[at] == 0);
}

static void check_long_doubles(struct collective of, size_t count) {
    long double result[LONGEST / sizeof(long double)] = {0};
    begin();
    check_end(fold_rows(of, ENGINE_PROD, played.rows[comm.rank], count * sizeof *result, result),
              count * sizeof *result);
    for (size_t at = 0; comm.rank == of.root && at < count; at++)
        CHECK(result[at] == (long double)((at + 1) * (at + 2) * (at + 3)));
}

static void fill_rows(bool with_long_doubles) {
    for (size_t member = 0; member < MEMBERS; member++)
        for (size_t at = 0; at < LONGEST; at++) played.rows[member][at] = (unsigned char)(at * 7 + member * 31 + 1);
    for (size_t member = 0; with_long_doubles && member < MEMBERS; member++)
        for (size_t at = 0; at < LONGEST / sizeof(long double); at++) {
            long double number = (long double)(at + member + 1);
            memcpy(played.rows[member] + at * sizeof number, &number, sizeof number);
        }
}

int main(void) {
    static const size_t lengths[] = {0, 1, PART - 1, PART, PART + 1, 2 * PART, LONGEST};
    for (comm.rank = 0; comm.rank < MEMBERS; comm.rank++)
        for (int root = 0; root < MEMBERS; root++) {
            const struct collective of = {&comm, root, ENGINE_UINT8, 1};
            fill_rows(false);
            for (size_t at = 0; at < sizeof lengths / sizeof *lengths; at++) {
                check_data(of, lengths[at]);
                check_sums(of, lengths[at]);
            }
            fill_rows(true);
            for (size_t count = 0; count <= LONGEST / sizeof(long double); count++) check_long_doubles(of, count);
        }
    return unit_end();
}
