/* Messages that end within an item (MPI 3.1, 4.1.11): how many elements came, and how programs say so (12.3). */
#include "test.h"

#include <limits.h>

/* An item {char, 2 double, int} and what messages of so many of its elements are. */
static MPI_Datatype mixed_item(void) {
    MPI_Datatype made;
    MPI_Type_create_struct(3, (int[]){1, 2, 1}, (MPI_Aint[]){0, 8, 24}, (MPI_Datatype[]){MPI_CHAR, MPI_DOUBLE, MPI_INT},
                           &made);
    MPI_Type_commit(&made);
    return made;
}

static void check_counts(const MPI_Status *status, MPI_Datatype type, int items, int elements) {
    int count = -7, some = -7;
    MPI_Count long_count = -7;
    MPI_Get_count(status, type, &count);
    MPI_Get_elements(status, type, &some);
    MPI_Get_elements_x(status, type, &long_count);
    CHECK(count == items && some == elements && long_count == elements);
}

/* A part of an item is sent as a struct of its first elements. */
static void check_received(void) {
    MPI_Datatype whole = mixed_item(), part;
    MPI_Status status;
    unsigned char from[64], into[64];
    MPI_Type_create_struct(2, (int[]){1, 1}, (MPI_Aint[]){0, 8}, (MPI_Datatype[]){MPI_CHAR, MPI_DOUBLE}, &part);
    MPI_Type_commit(&part);
    fill(from, sizeof from, 3);
    memset(into, 0, sizeof into);
    MPI_Sendrecv(from, 1, part, test_rank, 0, into, 2, whole, test_rank, 0, MPI_COMM_WORLD, &status);
    check_counts(&status, whole, MPI_UNDEFINED, 2);
    CHECK(into[0] == from[0] && memcmp(into + 8, from + 8, 8) == 0 && is_all(into + 16, 48, 0));
    MPI_Sendrecv(from, 2, whole, test_rank, 0, into, 2, whole, test_rank, 0, MPI_COMM_WORLD, &status);
    check_counts(&status, whole, 2, 8);
    MPI_Type_free(&part);
    MPI_Type_free(&whole);
}

/* What is set is told: also in items of items, and in the midst of them. */
static void check_set(void) {
    MPI_Datatype item = mixed_item(), three, vector;
    MPI_Status status;
    MPI_Type_contiguous(3, item, &three);
    MPI_Type_create_hvector(4, 5, 1000, three, &vector);
    MPI_Type_commit(&three);
    MPI_Type_commit(&vector);
    for (int elements = 0; elements <= 500; elements++) {
        MPI_Status_set_elements(&status, vector, elements);
        check_counts(&status, vector, elements % 240 == 0 ? elements / 240 : MPI_UNDEFINED, elements);
        check_counts(&status, three, elements % 12 == 0 ? elements / 12 : MPI_UNDEFINED, elements);
        check_counts(&status, item, elements % 4 == 0 ? elements / 4 : MPI_UNDEFINED, elements);
    }
    MPI_Type_free(&item);
    MPI_Type_free(&three);
    MPI_Type_free(&vector);
}

/* Bytes that end within an element are no number of them. */
static void check_within(void) {
    MPI_Datatype item = mixed_item();
    MPI_Status status;
    const int wanted[] = {0, 1, MPI_UNDEFINED, 2, MPI_UNDEFINED, 3, 4, 5};
    const int bytes[] = {0, 1, 8, 9, 16, 17, 21, 22};
    for (int i = 0; i < 8; i++) {
        MPI_Status_set_elements(&status, MPI_BYTE, bytes[i]);
        check_counts(&status, item, bytes[i] % 21 == 0 ? bytes[i] / 21 : MPI_UNDEFINED, wanted[i]);
    }
    MPI_Type_free(&item);
}

/* Counts beyond those of an int. */
static void check_large(void) {
    const int most = 2147483647;
    MPI_Datatype row, rows;
    MPI_Status status;
    MPI_Count size = -1, lower = -1, extent = -1, elements = -1;
    int count = -1, told = -1;
    MPI_Type_contiguous(most, MPI_DOUBLE, &row);
    MPI_Type_vector(3, 1, 2, row, &rows);
    MPI_Type_commit(&row);
    MPI_Type_commit(&rows);
    MPI_Type_size(rows, &told);
    MPI_Type_size_x(rows, &size);
    MPI_Type_get_extent_x(rows, &lower, &extent);
    CHECK(told == MPI_UNDEFINED && size == (MPI_Count)3 * 8 * most && lower == 0 && extent == (MPI_Count)5 * 8 * most);
    MPI_Status_set_elements_x(&status, rows, (MPI_Count)2 * most);
    MPI_Get_elements_x(&status, rows, &elements);
    MPI_Get_elements(&status, rows, &told);
    MPI_Get_count(&status, row, &count);
    CHECK(elements == (MPI_Count)2 * most && told == MPI_UNDEFINED && count == 2);
    MPI_Status_set_elements_x(&status, MPI_BYTE, LLONG_MAX);
    MPI_Get_elements_x(&status, MPI_BYTE, &elements);
    CHECK(elements == LLONG_MAX);
    MPI_Type_free(&row);
    MPI_Type_free(&rows);
}

static void check_cancelled(void) {
    MPI_Status status;
    int flag = -1;
    MPI_Status_set_cancelled(&status, 1);
    MPI_Test_cancelled(&status, &flag);
    CHECK(flag != 0);
    MPI_Status_set_cancelled(&status, 0);
    MPI_Test_cancelled(&status, &flag);
    CHECK(flag == 0);
}

/* A pair has two elements, a complex number is one. */
static void check_pairs(void) {
    MPI_Status status;
    MPI_Status_set_elements(&status, MPI_DOUBLE_INT, 3);
    check_counts(&status, MPI_DOUBLE_INT, MPI_UNDEFINED, 3);
    check_counts(&status, MPI_BYTE, 20, 20);
    MPI_Status_set_elements(&status, MPI_C_DOUBLE_COMPLEX, 3);
    check_counts(&status, MPI_C_DOUBLE_COMPLEX, 3, 3);
    check_counts(&status, MPI_DOUBLE, 6, 6);
}

int main(int argc, char **argv) {
    test_begin(&argc, &argv);
    check_received();
    check_set();
    check_within();
    check_large();
    check_cancelled();
    check_pairs();
    return test_end();
}
