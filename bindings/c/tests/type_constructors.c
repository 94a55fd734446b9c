/* The constructors whose displacements are in bytes, and those of several types (MPI 3.1, 4.1.2 and 4.1.7): bounds,
 * sizes, and where their data stand. */
#include "test.h"

#include <stddef.h>

enum { ROOM = 600, FIRST = 200 };

static void check_bounds(MPI_Datatype type, int size, MPI_Aint lower, MPI_Aint extent) {
    int told = -1;
    MPI_Aint bound = -1, span = -1;
    MPI_Type_size(type, &told);
    MPI_Type_get_extent(type, &bound, &span);
    CHECK(told == size);
    CHECK(bound == lower);
    CHECK(span == extent);
}
static void check_true_bounds(MPI_Datatype type, MPI_Aint lower, MPI_Aint extent) {
    MPI_Aint bound = -1, span = -1;
    MPI_Count long_bound = -1, long_span = -1;
    MPI_Type_get_true_extent(type, &bound, &span);
    MPI_Type_get_true_extent_x(type, &long_bound, &long_span);
    CHECK(bound == lower && span == extent);
    CHECK(long_bound == lower && long_span == extent);
}

/* Sends items to the own rank as a row of items of another type, and compares with the places of their bytes, which are
 * in rows of `length`. Then the other way round. Frees the type. */
static void check_places(MPI_Datatype type, int items, MPI_Datatype as, int count, const int *places, int rows,
                         int length) {
    unsigned char from[ROOM], row[ROOM], into[ROOM], wanted[ROOM];
    fill(from, ROOM, 5);
    memset(row, 0, ROOM);
    MPI_Type_commit(&type);
    MPI_Sendrecv(from + FIRST, items, type, test_rank, 0, row, count, as, test_rank, 0, MPI_COMM_WORLD,
                 MPI_STATUS_IGNORE);
    for (int i = 0; i < rows; i++) CHECK(memcmp(row + i * length, from + FIRST + places[i], (size_t)length) == 0);
    CHECK(is_all(row + rows * length, (size_t)(ROOM - rows * length), 0));
    memset(into, 1, ROOM);
    memset(wanted, 1, ROOM);
    for (int i = 0; i < rows; i++) memcpy(wanted + FIRST + places[i], row + i * length, (size_t)length);
    MPI_Sendrecv(row, count, as, test_rank, 0, into + FIRST, items, type, test_rank, 0, MPI_COMM_WORLD,
                 MPI_STATUS_IGNORE);
    CHECK(memcmp(into, wanted, ROOM) == 0);
    MPI_Type_free(&type);
}

static void check_vectors(void) {
    MPI_Datatype made, short_pair;
    MPI_Type_create_hvector(3, 2, -20, MPI_INT, &made);
    check_bounds(made, 24, -40, 48);
    check_true_bounds(made, -40, 48);
    check_places(made, 2, MPI_INT, 12, (int[]){0, -20, -40, 48, 28, 8}, 6, 8);
    MPI_Type_contiguous(2, MPI_SHORT, &short_pair);
    MPI_Type_create_hvector(4, 1, 6, short_pair, &made);
    check_bounds(made, 16, 0, 22);
    check_places(made, 1, MPI_SHORT, 8, (int[]){0, 6, 12, 18}, 4, 4);
    MPI_Type_create_hvector(2, 1, 9, short_pair, &made);
    check_bounds(made, 8, 0, 14); /* 13, rounded up */
    check_places(made, 2, MPI_SHORT, 8, (int[]){0, 9, 14, 23}, 4, 4);
    MPI_Type_free(&short_pair);
}

static void check_indexed(void) {
    MPI_Datatype made;
    int lengths[] = {2, 0, 1};
    MPI_Aint places[] = {16, 100, -8};
    MPI_Type_create_hindexed(3, lengths, places, MPI_INT, &made);
    check_bounds(made, 12, -8, 32);
    check_places(made, 2, MPI_INT, 6, (int[]){16, 20, -8, 48, 52, 24}, 6, 4);
    MPI_Type_create_indexed_block(3, 2, (int[]){0, 7, -3}, MPI_SHORT, &made);
    check_bounds(made, 12, -6, 24);
    check_places(made, 2, MPI_SHORT, 12, (int[]){0, 14, -6, 24, 38, 18}, 6, 4);
    MPI_Type_create_hindexed_block(3, 2, (MPI_Aint[]){1, 21, 11}, MPI_SHORT, &made);
    check_bounds(made, 12, 1, 24);
    check_places(made, 1, MPI_SHORT, 6, (int[]){1, 21, 11}, 3, 4);
}

struct particle {
    char kind;
    double place[3];
    int number;
};

static void check_structs(void) {
    MPI_Datatype made, resized;
    int lengths[] = {1, 3, 1};
    MPI_Aint places[] = {offsetof(struct particle, kind), offsetof(struct particle, place),
                         offsetof(struct particle, number)};
    MPI_Datatype types[] = {MPI_CHAR, MPI_DOUBLE, MPI_INT};
    MPI_Type_create_struct(3, lengths, places, types, &made);
    check_bounds(made, 29, 0, sizeof(struct particle));
    MPI_Type_commit(&made);
    struct particle from[5], into[5];
    fill(from, sizeof from, 8);
    memset(into, 0, sizeof into);
    MPI_Sendrecv(from, 5, made, test_rank, 1, into, 5, made, test_rank, 1, MPI_COMM_WORLD, MPI_STATUS_IGNORE);
    for (int i = 0; i < 5; i++) {
        CHECK(into[i].kind == from[i].kind && into[i].number == from[i].number);
        CHECK(memcmp(into[i].place, from[i].place, sizeof from[i].place) == 0);
    }
    MPI_Type_create_resized(made, -8, 56, &resized);
    check_bounds(resized, 29, -8, 56);
    check_true_bounds(resized, 0, 36);
    MPI_Type_free(&resized);
    MPI_Type_free(&made);
    /* The order is that of the blocks; blocks may be none. */
    MPI_Type_create_struct(3, (int[]){1, 0, 2}, (MPI_Aint[]){12, 400, 2},
                           (MPI_Datatype[]){MPI_INT, MPI_DOUBLE, MPI_SHORT}, &made);
    check_bounds(made, 8, 2, 16); /* 14, rounded up */
    check_places(made, 1, MPI_BYTE, 8, (int[]){12, 2}, 2, 4);
    MPI_Type_create_struct(0, NULL, NULL, NULL, &made);
    check_bounds(made, 0, 0, 0);
    check_places(made, 3, MPI_BYTE, 0, NULL, 0, 1);
}

/* What has markers of its bounds keeps them in what is made of it. */
static void check_markers(void) {
    MPI_Datatype made, resized, twice;
    MPI_Type_create_resized(MPI_INT, -3, 9, &made);
    check_bounds(made, 4, -3, 9);
    MPI_Type_contiguous(2, made, &twice);
    check_bounds(twice, 8, -3, 18);
    check_places(twice, 1, MPI_INT, 2, (int[]){0, 9}, 2, 4);
    MPI_Type_free(&made);
    MPI_Type_create_resized(MPI_INT, 0, 10, &resized);
    MPI_Type_vector(2, 2, 3, resized, &made);
    check_bounds(made, 16, 0, 50);
    check_true_bounds(made, 0, 44);
    check_places(made, 1, MPI_INT, 4, (int[]){0, 10, 30, 40}, 4, 4);
    /* Items that go backwards, or stand in one place. */
    MPI_Type_create_resized(MPI_INT, 0, -8, &made);
    check_bounds(made, 4, 0, -8);
    check_places(made, 3, MPI_INT, 3, (int[]){0, -8, -16}, 3, 4);
    MPI_Type_free(&resized);
}

static void check_copies(void) {
    MPI_Datatype vector, copy, other;
    MPI_Type_vector(2, 1, 3, MPI_INT, &vector);
    MPI_Type_dup(vector, &copy);
    MPI_Type_free(&vector);
    check_bounds(copy, 8, 0, 16);
    check_places(copy, 2, MPI_INT, 4, (int[]){0, 12, 16, 28}, 4, 4);
    /* A copy of what is committed is committed. */
    MPI_Type_dup(MPI_INT, &other);
    int from = 8, into = 0;
    MPI_Sendrecv(&from, 1, other, test_rank, 1, &into, 1, MPI_INT, test_rank, 1, MPI_COMM_WORLD, MPI_STATUS_IGNORE);
    CHECK(into == 8);
    MPI_Type_free(&other);
}

/* Addresses are displacements from MPI_BOTTOM (4.1.5). */
static void check_addresses(void) {
    int first[2] = {3, 4}, got[2] = {0};
    double second = 5.5, other = 0;
    MPI_Aint places[2], into[2];
    MPI_Datatype out, in;
    MPI_Get_address(first, &places[0]);
    MPI_Get_address(&second, &places[1]);
    MPI_Get_address(got, &into[0]);
    MPI_Get_address(&other, &into[1]);
    MPI_Type_create_struct(2, (int[]){2, 1}, places, (MPI_Datatype[]){MPI_INT, MPI_DOUBLE}, &out);
    MPI_Type_create_struct(2, (int[]){2, 1}, into, (MPI_Datatype[]){MPI_INT, MPI_DOUBLE}, &in);
    MPI_Type_commit(&out);
    MPI_Type_commit(&in);
    MPI_Sendrecv(MPI_BOTTOM, 1, out, test_rank, 2, MPI_BOTTOM, 1, in, test_rank, 2, MPI_COMM_WORLD, MPI_STATUS_IGNORE);
    CHECK(got[0] == 3 && got[1] == 4 && other == 5.5);
    MPI_Type_free(&out);
    MPI_Type_free(&in);
}

int main(int argc, char **argv) {
    test_begin(&argc, &argv);
    check_vectors();
    check_indexed();
    check_structs();
    check_markers();
    check_copies();
    check_addresses();
    return test_end();
}
