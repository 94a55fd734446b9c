/* Parts of long rows: all of a row goes, once; rows of different lengths differ in a part that both have. */
#include "../../src/parts.h"
#include "unit.h"

enum { LONGEST_ROW = 120, MOST_PARTS = LONGEST_ROW + 1 };

/* The lengths of a row's parts: how many there are. */
static int list_parts(size_t length, size_t longest, size_t *lengths) {
    struct part part = first_part(length, longest);
    size_t sum = 0;
    int count = 0;
    do {
        CHECK(part.from == sum && part.length <= longest);
        sum += lengths[count++] = part.length;
    } while (count < MOST_PARTS && next_part(&part, length, longest));
    CHECK(sum == length && lengths[count - 1] < longest);
    return count;
}

static bool do_differ(size_t one, size_t other, size_t longest) {
    size_t of_one[MOST_PARTS], of_other[MOST_PARTS];
    int count = list_parts(one, longest, of_one), others = list_parts(other, longest, of_other);
    for (int at = 0; at < count && at < others; at++)
        if (of_one[at] != of_other[at]) return true;
    return false;
}

/* Of so many blocks at most 64 MiB go at once, in whole elements. */
static void check_longest(int blocks) {
    for (size_t unit = 1; unit <= 16; unit *= 2) {
        const size_t longest = longest_part(blocks, unit), most = 64 << 20;
        CHECK(longest % unit == 0 && longest > 0);
        CHECK(longest * (size_t)blocks <= most && (longest + unit) * (size_t)blocks > most);
    }
}

int main(void) {
    for (size_t longest = 1; longest < 20; longest++)
        for (size_t one = 0; one <= LONGEST_ROW; one++)
            for (size_t other = one + 1; other <= LONGEST_ROW; other++) CHECK(do_differ(one, other, longest));
    for (int blocks = 1; blocks <= 1024; blocks++) check_longest(blocks);
    return unit_end();
}
