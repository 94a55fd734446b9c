/* The names of MPI-1 (MPI 3.1, 15.1 and 16.1): the same types as by those that came for them, and markers of bounds. */
#include "test.h"

/* Whether two types have the same size, bounds and data; frees both. */
static void check_alike(MPI_Datatype one, MPI_Datatype other) {
    unsigned char from[400], first[400], second[400];
    int sizes[2] = {-1, -2};
    MPI_Aint lower[2] = {-1, -2}, extent[2] = {-1, -2};
    MPI_Type_commit(&one);
    MPI_Type_commit(&other);
    MPI_Type_size(one, &sizes[0]);
    MPI_Type_size(other, &sizes[1]);
    MPI_Type_get_extent(one, &lower[0], &extent[0]);
    MPI_Type_get_extent(other, &lower[1], &extent[1]);
    CHECK(sizes[0] == sizes[1] && lower[0] == lower[1] && extent[0] == extent[1]);
    fill(from, sizeof from, 1);
    memset(first, 0, sizeof first);
    memset(second, 0, sizeof second);
    MPI_Sendrecv(from + 100, 1, one, test_rank, 0, first + 100, 1, other, test_rank, 0, MPI_COMM_WORLD,
                 MPI_STATUS_IGNORE);
    MPI_Sendrecv(from + 100, 1, other, test_rank, 0, second + 100, 1, one, test_rank, 0, MPI_COMM_WORLD,
                 MPI_STATUS_IGNORE);
    CHECK(memcmp(first, second, sizeof first) == 0 && !is_all(first, sizeof first, 0));
    MPI_Type_free(&one);
    MPI_Type_free(&other);
}

static void check_constructors(void) {
    MPI_Datatype one, other;
    int lengths[] = {2, 0, 1};
    MPI_Aint places[] = {16, 100, -8};
    MPI_Datatype types[] = {MPI_INT, MPI_CHAR, MPI_DOUBLE};
    MPI_Type_hvector(3, 2, -20, MPI_INT, &one);
    MPI_Type_create_hvector(3, 2, -20, MPI_INT, &other);
    check_alike(one, other);
    MPI_Type_hindexed(3, lengths, places, MPI_INT, &one);
    MPI_Type_create_hindexed(3, lengths, places, MPI_INT, &other);
    check_alike(one, other);
    MPI_Type_struct(3, lengths, places, types, &one);
    MPI_Type_create_struct(3, lengths, places, types, &other);
    check_alike(one, other);
}

/* Markers are bounds in place of those of the data (4.1.7). */
static void check_markers(void) {
    MPI_Datatype made, resized, twice;
    MPI_Aint lower = -1, upper = -1, extent = -1;
    MPI_Type_struct(3, (int[]){1, 1, 1}, (MPI_Aint[]){-3, 0, 6}, (MPI_Datatype[]){MPI_LB, MPI_INT, MPI_UB}, &made);
    MPI_Type_contiguous(2, made, &twice);
    MPI_Type_lb(twice, &lower);
    MPI_Type_ub(twice, &upper);
    MPI_Type_extent(twice, &extent);
    CHECK(lower == -3 && upper == 15 && extent == 18);
    MPI_Type_create_resized(MPI_INT, -3, 9, &resized);
    check_alike(made, resized);
    MPI_Type_free(&twice);
    /* One marker leaves the other bound to the data. */
    MPI_Type_struct(2, (int[]){1, 1}, (MPI_Aint[]){0, 10}, (MPI_Datatype[]){MPI_INT, MPI_UB}, &made);
    MPI_Type_lb(made, &lower);
    MPI_Type_ub(made, &upper);
    CHECK(lower == 0 && upper == 10);
    MPI_Type_free(&made);
    MPI_Type_struct(2, (int[]){1, 1}, (MPI_Aint[]){4, -4}, (MPI_Datatype[]){MPI_INT, MPI_LB}, &made);
    MPI_Type_lb(made, &lower);
    MPI_Type_ub(made, &upper);
    CHECK(lower == -4 && upper == 8);
    MPI_Type_free(&made);
}

int main(int argc, char **argv) {
    test_begin(&argc, &argv);
    int places[2];
    MPI_Aint first = 0, second = 0;
    MPI_Address(&places[0], &first);
    MPI_Address(&places[1], &second);
    CHECK(second - first == (MPI_Aint)sizeof(int));
    check_constructors();
    check_markers();
    return test_end();
}
