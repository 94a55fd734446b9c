/* Groups (MPI 3.1, 6.3): sets of ranks in an order. */
#include "test.h"

static MPI_Group world;

static int compared(MPI_Group one, MPI_Group other) {
    int result = -1;
    MPI_Group_compare(one, other, &result);
    return result;
}
static MPI_Group chosen(int n, const int ranks[]) {
    MPI_Group made;
    MPI_Group_incl(world, n, ranks, &made);
    return made;
}

/* Whether a group has just these ranks of the world, in this order. */
static bool has(MPI_Group group, int n, const int ranks[]) {
    int size = -1, places[8], found[8];
    MPI_Group_size(group, &size);
    if (size != n) return false;
    for (int i = 0; i < n; i++) places[i] = i;
    MPI_Group_translate_ranks(group, n, places, world, found);
    for (int i = 0; i < n; i++)
        if (found[i] != ranks[i]) return false;
    return true;
}
#define RANKS(...)                                                                                                     \
    (int)(sizeof((int[]){__VA_ARGS__}) / sizeof(int)), (int[]) { __VA_ARGS__ }

static void check_world(void) {
    MPI_Group again;
    int rank = -1, size = -1;
    MPI_Group_rank(world, &rank);
    MPI_Group_size(world, &size);
    CHECK(rank == test_rank && size == test_size);
    MPI_Comm_group(MPI_COMM_WORLD, &again);
    CHECK(compared(world, again) == MPI_IDENT);
    MPI_Group_free(&again);
    CHECK(again == MPI_GROUP_NULL);
}

static void check_choices(void) {
    MPI_Group some = chosen(RANKS(3, 0, 4)), rest, turned = chosen(RANKS(0, 3, 4)), two = chosen(RANKS(0, 3));
    int rank = -1;
    CHECK(has(some, RANKS(3, 0, 4)));
    MPI_Group_rank(some, &rank);
    CHECK(rank == (test_rank == 3 ? 0 : test_rank == 0 ? 1 : test_rank == 4 ? 2 : MPI_UNDEFINED));
    MPI_Group_excl(world, RANKS(3, 0), &rest);
    CHECK(has(rest, RANKS(1, 2, 4)));
    CHECK(compared(some, turned) == MPI_SIMILAR && compared(some, two) == MPI_UNEQUAL);
    CHECK(compared(some, rest) == MPI_UNEQUAL);
    MPI_Group_free(&some);
    MPI_Group_free(&rest);
    MPI_Group_free(&turned);
    MPI_Group_free(&two);
}

static void check_sets(void) {
    MPI_Group one = chosen(RANKS(4, 1, 2)), other = chosen(RANKS(2, 0, 4)), made;
    MPI_Group_union(one, other, &made);
    CHECK(has(made, RANKS(4, 1, 2, 0)));
    MPI_Group_free(&made);
    MPI_Group_union(other, one, &made);
    CHECK(has(made, RANKS(2, 0, 4, 1)));
    MPI_Group_free(&made);
    MPI_Group_intersection(one, other, &made);
    CHECK(has(made, RANKS(4, 2)));
    MPI_Group_free(&made);
    MPI_Group_difference(one, other, &made);
    CHECK(has(made, RANKS(1)));
    MPI_Group_free(&made);
    MPI_Group_difference(one, one, &made);
    CHECK(made == MPI_GROUP_EMPTY);
    MPI_Group_free(&one);
    MPI_Group_free(&other);
}

static void check_empty(void) {
    MPI_Group made, rest;
    int size = -1, rank = -1;
    MPI_Group_incl(world, 0, NULL, &made);
    CHECK(made == MPI_GROUP_EMPTY);
    MPI_Group_size(made, &size);
    MPI_Group_rank(made, &rank);
    CHECK(size == 0 && rank == MPI_UNDEFINED);
    MPI_Group_excl(world, 0, NULL, &rest);
    CHECK(compared(rest, world) == MPI_IDENT);
    MPI_Group_free(&rest);
    MPI_Group_union(MPI_GROUP_EMPTY, world, &rest);
    CHECK(compared(rest, world) == MPI_IDENT);
    MPI_Group_free(&rest);
    MPI_Group_intersection(world, MPI_GROUP_EMPTY, &rest);
    CHECK(rest == MPI_GROUP_EMPTY && compared(rest, MPI_GROUP_EMPTY) == MPI_IDENT);
}

/* Ranks of one group in another; who isn't in it, and the process that is none. */
static void check_translation(void) {
    MPI_Group one = chosen(RANKS(4, 1, 2)), other = chosen(RANKS(2, 0, 4));
    const int places[] = {0, MPI_PROC_NULL, 1, 2, 0};
    int found[5];
    MPI_Group_translate_ranks(one, 5, places, other, found);
    CHECK(found[0] == 2 && found[1] == MPI_PROC_NULL && found[2] == MPI_UNDEFINED && found[3] == 0 && found[4] == 2);
    MPI_Group_free(&one);
    MPI_Group_free(&other);
}

/* The group of a communicator whose order is another one. */
static void check_of_communicator(void) {
    MPI_Comm turned;
    MPI_Group group;
    MPI_Comm_split(MPI_COMM_WORLD, test_rank == 2, -test_rank, &turned);
    MPI_Comm_group(turned, &group);
    if (test_rank == 2) CHECK(has(group, RANKS(2)));
    else CHECK(has(group, RANKS(4, 3, 1, 0)));
    MPI_Comm_free(&turned);
    CHECK(test_rank == 2 || has(group, RANKS(4, 3, 1, 0)));
    MPI_Group_free(&group);
}

int main(int argc, char **argv) {
    test_begin(&argc, &argv);
    MPI_Comm_group(MPI_COMM_WORLD, &world);
    check_world();
    check_choices();
    check_sets();
    check_empty();
    check_translation();
    check_of_communicator();
    MPI_Group_free(&world);
    return test_end();
}
