/* Tests src/marks.c: what the marks of ranks mean. */
#include "../../src/marks.h"
#include "unit.h"

static void test_looks(void) {
    CHECK(is_waiting(mark_of_look(0)) && is_waiting(mark_of_look(1)) && is_waiting(mark_of_look(2)));
    CHECK(mark_of_look(0) != mark_of_look(1) && mark_of_look(1) != mark_of_look(2));
    CHECK(mark_of_look(3) == mark_of_look(0) && mark_of_look(5) == mark_of_look(2));
    CHECK(!is_waiting(0) && !is_waiting(MARK_BEGUN) && !is_waiting(MARK_ENDED) && !is_waiting(MARK_LEFT));
}

static void test_ports(void) {
    CHECK(!has_port(0) && !has_port(MARK_ENDED));
    CHECK(has_port(MARK_BEGUN) && has_port(MARK_LEFT) && has_port(mark_of_look(1)));
}

static void test_jobs(void) {
    const char none[] = {0, 0, 0}, some[] = {'-', 0, 'w'}, ended[] = {'-', 'e', 'x'}, all[] = {'-', 'l', 'y'};
    CHECK(!have_all_come(none, 3) && !have_all_come(some, 3) && have_all_come(ended, 3) && have_all_come(all, 3));
    CHECK(!have_all_ports(none, 3) && !have_all_ports(some, 3) && !have_all_ports(ended, 3) && have_all_ports(all, 3));
    CHECK(have_all_ports(some, 1) && have_all_come(ended, 1));
    CHECK(first_marked(some, 3, 0) == 1 && first_marked(some, 3, 'w') == 2 && first_marked(some, 2, 'w') == -1);
    CHECK(first_marked(ended, 3, MARK_ENDED) == 1 && first_marked(all, 3, MARK_ENDED) == -1);
}

int main(void) {
    test_looks();
    test_ports();
    test_jobs();
    return unit_end();
}
