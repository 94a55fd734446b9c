/* Types made by contiguous, vector and indexed (MPI 3.1, 4.1.2): bounds, sizes, and where their data stand. */
#include "test.h"

enum { ROOM = 400 };

static void check_bounds(MPI_Datatype type, int size, MPI_Aint lower, MPI_Aint extent) {
    int told = -1;
    MPI_Aint bound = -1, span = -1;
    MPI_Type_size(type, &told);
    MPI_Type_get_extent(type, &bound, &span);
    CHECK(told == size);
    CHECK(bound == lower);
    CHECK(span == extent);
}

/* Sends items to the own rank as integers in a row, and compares with the places where their data are to stand. Then
 * the other way round: what arrives goes to these places, and nothing else is touched. */
static void check_places(MPI_Datatype type, int items, const int *places, int count) {
    int from[ROOM], row[ROOM], into[ROOM];
    MPI_Request request;
    MPI_Status status;
    int told = -1;
    for (int i = 0; i < ROOM; i++) from[i] = 1000 + i;
    memset(row, 0, sizeof row);
    MPI_Type_commit(&type);
    MPI_Irecv(row, ROOM, MPI_INT, test_rank, 0, MPI_COMM_WORLD, &request);
    MPI_Send(from, items, type, test_rank, 0, MPI_COMM_WORLD);
    MPI_Wait(&request, &status);
    MPI_Get_count(&status, MPI_INT, &told);
    CHECK(told == count);
    for (int i = 0; i < count; i++) CHECK(row[i] == 1000 + places[i]);
    memset(into, 0, sizeof into);
    MPI_Irecv(into, items, type, test_rank, 0, MPI_COMM_WORLD, &request);
    MPI_Send(row, count, MPI_INT, test_rank, 0, MPI_COMM_WORLD);
    MPI_Wait(&request, &status);
    MPI_Get_count(&status, type, &told);
    CHECK(told == (count == 0 ? 0 : items));
    MPI_Get_elements(&status, type, &told);
    CHECK(told == count);
    for (int i = 0; i < count; i++) CHECK(into[places[i]] == 1000 + places[i]);
    int touched = 0;
    for (int i = 0; i < ROOM; i++) touched += into[i] != 0;
    CHECK(touched == count);
    MPI_Type_free(&type);
    CHECK(type == MPI_DATATYPE_NULL);
}

static void check_contiguous(void) {
    MPI_Datatype three, six;
    MPI_Type_contiguous(3, MPI_INT, &three);
    check_bounds(three, 12, 0, 12);
    MPI_Type_contiguous(2, three, &six);
    check_bounds(six, 24, 0, 24);
    check_places(three, 2, (int[]){0, 1, 2, 3, 4, 5}, 6);
    check_places(six, 1, (int[]){0, 1, 2, 3, 4, 5}, 6);
}

static void check_vector(void) {
    MPI_Datatype gaps, row, backwards, nested;
    MPI_Type_vector(3, 2, 4, MPI_INT, &gaps);
    check_bounds(gaps, 24, 0, 40);
    /* The second item begins where the first one ends: at 10 integers. */
    check_places(gaps, 2, (int[]){0, 1, 4, 5, 8, 9, 10, 11, 14, 15, 18, 19}, 12);
    MPI_Type_vector(2, 2, 2, MPI_INT, &row);
    check_bounds(row, 16, 0, 16);
    check_places(row, 1, (int[]){0, 1, 2, 3}, 4);
    MPI_Type_vector(3, 1, -2, MPI_INT, &backwards);
    check_bounds(backwards, 12, -16, 20);
    MPI_Type_free(&backwards);
    MPI_Type_vector(2, 1, 3, MPI_INT, &row);
    check_bounds(row, 8, 0, 16);
    MPI_Type_vector(2, 1, 2, row, &nested);
    check_bounds(nested, 16, 0, 48);
    check_places(nested, 1, (int[]){0, 3, 8, 11}, 4);
    MPI_Type_free(&row);
}

static void check_indexed(void) {
    MPI_Datatype some, shifted, pairs, two;
    MPI_Type_indexed(3, (int[]){2, 1, 3}, (int[]){5, 0, 9}, MPI_INT, &some);
    check_bounds(some, 24, 0, 48);
    /* In the order of the blocks, which isn't that of the places. */
    check_places(some, 2, (int[]){5, 6, 0, 9, 10, 11, 17, 18, 12, 21, 22, 23}, 12);
    MPI_Type_indexed(2, (int[]){1, 2}, (int[]){3, 6}, MPI_INT, &shifted);
    check_bounds(shifted, 12, 12, 20);
    check_places(shifted, 2, (int[]){3, 6, 7, 8, 11, 12}, 6);
    MPI_Type_contiguous(2, MPI_INT, &two);
    MPI_Type_indexed(2, (int[]){1, 2}, (int[]){4, 1}, two, &pairs);
    check_bounds(pairs, 24, 8, 32);
    check_places(pairs, 1, (int[]){8, 9, 2, 3, 4, 5}, 6);
    MPI_Type_free(&two);
}

/* Types of no data: no item of theirs has a place. */
static void check_empty(void) {
    MPI_Datatype none, nothing;
    MPI_Type_contiguous(0, MPI_INT, &none);
    check_bounds(none, 0, 0, 0);
    check_places(none, 0, (int[]){0}, 0);
    MPI_Type_vector(3, 0, 5, MPI_INT, &none);
    check_places(none, 4, (int[]){0}, 0);
    MPI_Type_indexed(3, (int[]){0, 2, 0}, (int[]){1, 7, 30}, MPI_INT, &nothing);
    check_bounds(nothing, 8, 28, 8);
    check_places(nothing, 1, (int[]){7, 8}, 2);
}

/* A type that is freed is there for what was made of it, and for what was begun with it (4.1.9). */
static void check_freed(void) {
    MPI_Datatype inner, outer;
    MPI_Request request;
    int from[4] = {1, 2, 3, 4}, into[9] = {0};
    MPI_Type_vector(2, 1, 2, MPI_INT, &inner);
    MPI_Type_vector(2, 1, 2, inner, &outer);
    MPI_Type_free(&inner);
    MPI_Type_commit(&outer);
    CHECK(inner == MPI_DATATYPE_NULL);
    MPI_Irecv(into, 1, outer, test_rank, 3, MPI_COMM_WORLD, &request);
    MPI_Type_free(&outer);
    MPI_Send(from, 4, MPI_INT, test_rank, 3, MPI_COMM_WORLD);
    MPI_Wait(&request, MPI_STATUS_IGNORE);
    CHECK(into[0] == 1 && into[2] == 2 && into[6] == 3 && into[8] == 4 && into[1] == 0);
}

/* A message that isn't whole items: its elements are counted, its items aren't (4.1.11). */
static void check_partial(void) {
    MPI_Datatype pair;
    MPI_Request request;
    MPI_Status status;
    int from[3] = {7, 8, 9}, into[4] = {0}, count = 0, elements = 0;
    MPI_Type_contiguous(2, MPI_INT, &pair);
    MPI_Type_commit(&pair);
    MPI_Irecv(into, 2, pair, test_rank, 4, MPI_COMM_WORLD, &request);
    MPI_Send(from, 3, MPI_INT, test_rank, 4, MPI_COMM_WORLD);
    MPI_Wait(&request, &status);
    MPI_Get_count(&status, pair, &count);
    MPI_Get_elements(&status, pair, &elements);
    CHECK(count == MPI_UNDEFINED && elements == 3);
    CHECK(into[0] == 7 && into[1] == 8 && into[2] == 9 && into[3] == 0);
    MPI_Type_free(&pair);
}

/* Addresses and differences of them (4.1.5). */
static void check_addresses(void) {
    int list[10] = {0};
    MPI_Aint first = 0, sixth = 0;
    MPI_Get_address(&list[0], &first);
    MPI_Get_address(&list[5], &sixth);
    CHECK(MPI_Aint_diff(sixth, first) == (MPI_Aint)(5 * sizeof(int)));
    CHECK(MPI_Aint_add(first, (MPI_Aint)(5 * sizeof(int))) == sixth);
}

int main(int argc, char **argv) {
    test_begin(&argc, &argv);
    check_contiguous();
    check_vector();
    check_indexed();
    check_empty();
    check_freed();
    check_partial();
    check_addresses();
    return test_end();
}
