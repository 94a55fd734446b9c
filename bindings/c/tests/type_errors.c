/* What calls of types refuse (MPI 3.1, 4 and 8.4): the class, and that a refusal changes nothing. */
#include "test.h"

#include <limits.h>
#include <stdint.h>

static const MPI_Datatype untouched = MPI_2INT;
static MPI_Datatype made = MPI_2INT;
#define REFUSED(wanted, call) CHECK(class_of(call) == (wanted) && made == untouched)

static void check_constructors(void) {
    int lengths[] = {1, -1}, places[] = {0, 1};
    MPI_Aint addresses[] = {0, 8};
    MPI_Datatype types[] = {MPI_INT, MPI_DATATYPE_NULL};
    REFUSED(MPI_ERR_COUNT, MPI_Type_contiguous(-1, MPI_INT, &made));
    REFUSED(MPI_ERR_TYPE, MPI_Type_contiguous(1, MPI_DATATYPE_NULL, &made));
    REFUSED(MPI_ERR_TYPE, MPI_Type_dup(MPI_DATATYPE_NULL, &made));
    REFUSED(MPI_ERR_ARG, MPI_Type_dup(MPI_INT, NULL));
    REFUSED(MPI_ERR_COUNT, MPI_Type_vector(-1, 1, 1, MPI_INT, &made));
    REFUSED(MPI_ERR_ARG, MPI_Type_vector(1, -1, 1, MPI_INT, &made));
    REFUSED(MPI_ERR_ARG, MPI_Type_create_hvector(1, -1, 1, MPI_INT, &made));
    REFUSED(MPI_ERR_ARG, MPI_Type_indexed(2, lengths, places, MPI_INT, &made));
    REFUSED(MPI_ERR_ARG, MPI_Type_indexed(2, NULL, places, MPI_INT, &made));
    REFUSED(MPI_ERR_ARG, MPI_Type_create_hindexed(1, lengths, NULL, MPI_INT, &made));
    REFUSED(MPI_ERR_ARG, MPI_Type_create_indexed_block(2, -1, places, MPI_INT, &made));
    REFUSED(MPI_ERR_ARG, MPI_Type_create_hindexed_block(2, 1, NULL, MPI_INT, &made));
    REFUSED(MPI_ERR_TYPE, MPI_Type_create_struct(2, places, addresses, types, &made));
    REFUSED(MPI_ERR_ARG, MPI_Type_create_struct(2, lengths, addresses, types, &made));
    REFUSED(MPI_ERR_ARG, MPI_Type_create_struct(1, lengths, addresses, NULL, &made));
    REFUSED(MPI_ERR_COUNT, MPI_Type_create_struct(-1, lengths, addresses, types, &made));
    REFUSED(MPI_ERR_ARG, MPI_Type_create_f90_integer(500, &made));
    REFUSED(MPI_ERR_ARG, MPI_Type_create_f90_real(500, 2, &made));
    REFUSED(MPI_ERR_ARG, MPI_Type_create_f90_real(MPI_UNDEFINED, MPI_UNDEFINED, &made));
    REFUSED(MPI_ERR_ARG, MPI_Type_create_f90_complex(2, -5, &made));
    REFUSED(MPI_ERR_ARG, MPI_Type_match_size(MPI_TYPECLASS_REAL, 3, &made));
    REFUSED(MPI_ERR_ARG, MPI_Type_match_size(99, 4, &made));
}

static void check_arrays(void) {
    const int any = MPI_DISTRIBUTE_DFLT_DARG, block = MPI_DISTRIBUTE_BLOCK, order = MPI_ORDER_C;
    REFUSED(MPI_ERR_ARG, MPI_Type_create_subarray(0, &any, &any, &any, order, MPI_INT, &made));
    REFUSED(MPI_ERR_ARG, MPI_Type_create_subarray(1, (int[]){4}, (int[]){5}, (int[]){0}, order, MPI_INT, &made));
    REFUSED(MPI_ERR_ARG, MPI_Type_create_subarray(1, (int[]){4}, (int[]){0}, (int[]){0}, order, MPI_INT, &made));
    REFUSED(MPI_ERR_ARG, MPI_Type_create_subarray(1, (int[]){4}, (int[]){2}, (int[]){3}, order, MPI_INT, &made));
    REFUSED(MPI_ERR_ARG, MPI_Type_create_subarray(1, (int[]){4}, (int[]){2}, (int[]){-1}, order, MPI_INT, &made));
    REFUSED(MPI_ERR_ARG, MPI_Type_create_subarray(1, (int[]){4}, (int[]){2}, (int[]){1}, 99, MPI_INT, &made));
    REFUSED(MPI_ERR_ARG, MPI_Type_create_subarray(1, NULL, (int[]){2}, (int[]){1}, order, MPI_INT, &made));
    int size = 4, three = 3, five = 5;
    REFUSED(MPI_ERR_ARG, MPI_Type_create_darray(4, 4, 1, &five, &block, &any, &size, order, MPI_INT, &made));
    REFUSED(MPI_ERR_ARG, MPI_Type_create_darray(4, 0, 1, &five, &block, &any, &three, order, MPI_INT, &made));
    REFUSED(MPI_ERR_ARG, MPI_Type_create_darray(4, 0, 1, &five, &(int){9}, &any, &size, order, MPI_INT, &made));
    REFUSED(MPI_ERR_ARG, MPI_Type_create_darray(4, 0, 1, &five, &block, &(int){1}, &size, order, MPI_INT, &made));
    REFUSED(MPI_ERR_ARG,
            MPI_Type_create_darray(4, 0, 1, &five, &(int){MPI_DISTRIBUTE_NONE}, &any, &size, order, MPI_INT, &made));
}

/* Sizes, places and bounds that are not within 64 bits. */
static void check_large(void) {
    const MPI_Aint far = (MPI_Aint)1 << 62;
    MPI_Datatype large, larger;
    MPI_Type_contiguous(INT_MAX, MPI_INT, &large);
    MPI_Type_contiguous(1 << 29, large, &larger);
    REFUSED(MPI_ERR_ARG, MPI_Type_contiguous(INT_MAX, larger, &made));
    REFUSED(MPI_ERR_ARG, MPI_Type_vector(2, 1, INT_MAX, larger, &made));
    REFUSED(MPI_ERR_ARG, MPI_Type_create_hvector(4, 1, far, MPI_INT, &made));
    REFUSED(MPI_ERR_ARG, MPI_Type_create_hvector(2, 1, PTRDIFF_MIN, MPI_INT, &made));
    REFUSED(MPI_ERR_ARG, MPI_Type_create_hindexed(1, &(int){1}, &(MPI_Aint){PTRDIFF_MAX}, MPI_INT, &made));
    REFUSED(MPI_ERR_ARG, MPI_Type_create_resized(MPI_INT, far, far, &made));
    REFUSED(MPI_ERR_ARG, MPI_Type_indexed(1, &(int){1}, &(int){INT_MIN}, larger, &made));
    REFUSED(MPI_ERR_ARG, MPI_Type_create_subarray(2, (int[]){INT_MAX, INT_MAX}, (int[]){1, 1}, (int[]){0, 0},
                                                  MPI_ORDER_C, MPI_DOUBLE, &made));
    int size = 0;
    MPI_Pack_size(1, large, MPI_COMM_SELF, &size);
    CHECK(size == 0); /* it isn't committed */
    MPI_Type_commit(&large);
    MPI_Pack_size(1, large, MPI_COMM_SELF, &size);
    CHECK(size == MPI_UNDEFINED);
    MPI_Aint external = 0;
    MPI_Type_commit(&larger);
    CHECK(class_of(MPI_Pack_external_size("external32", INT_MAX, larger, &external)) == MPI_ERR_COUNT && external == 0);
    MPI_Type_free(&large);
    MPI_Type_free(&larger);
}

static void check_lives(void) {
    MPI_Datatype own, copy, kind;
    int size = 77, data[2] = {0}, position = 0;
    MPI_Aint bound = 77;
    MPI_Type_contiguous(2, MPI_INT, &own);
    copy = own;
    CHECK(class_of(MPI_Send(data, 1, own, test_rank, 0, MPI_COMM_WORLD)) == MPI_ERR_TYPE);
    CHECK(class_of(MPI_Pack(data, 1, own, data, 8, &position, MPI_COMM_WORLD)) == MPI_ERR_TYPE);
    MPI_Type_free(&own);
    CHECK(class_of(MPI_Type_size(copy, &size)) == MPI_ERR_TYPE && size == 77);
    CHECK(class_of(MPI_Type_get_true_extent(copy, &bound, &bound)) == MPI_ERR_TYPE && bound == 77);
    CHECK(class_of(MPI_Type_contiguous(1, copy, &made)) == MPI_ERR_TYPE && made == untouched);
    CHECK(class_of(MPI_Type_get_extent(MPI_INT, &bound, NULL)) == MPI_ERR_ARG && bound == 77);
    MPI_Type_create_f90_integer(5, &kind);
    own = MPI_COMPLEX;
    CHECK(class_of(MPI_Type_free(&kind)) == MPI_ERR_TYPE && kind != MPI_DATATYPE_NULL);
    CHECK(class_of(MPI_Type_free(&own)) == MPI_ERR_TYPE && own == MPI_COMPLEX);
}

static void check_packing(void) {
    int data[4] = {1, 2, 3, 4}, position = 3;
    MPI_Aint place = 3;
    char row[16];
    memset(row, 9, sizeof row);
    CHECK(class_of(MPI_Pack(data, 4, MPI_INT, row, 16, &position, MPI_COMM_SELF)) == MPI_ERR_TRUNCATE);
    CHECK(class_of(MPI_Pack(data, 1, MPI_INT, row, 2, &position, MPI_COMM_SELF)) == MPI_ERR_ARG);
    CHECK(class_of(MPI_Pack(NULL, 1, MPI_INT, row, 16, &position, MPI_COMM_SELF)) == MPI_ERR_BUFFER);
    CHECK(class_of(MPI_Pack(data, 1, MPI_INT, NULL, 16, &position, MPI_COMM_SELF)) == MPI_ERR_BUFFER);
    CHECK(class_of(MPI_Pack(data, -1, MPI_INT, row, 16, &position, MPI_COMM_SELF)) == MPI_ERR_COUNT);
    CHECK(class_of(MPI_Pack(data, 1, MPI_INT, row, 16, &position, MPI_COMM_NULL)) == MPI_ERR_COMM);
    CHECK(class_of(MPI_Unpack(row, 16, &position, data, 4, MPI_INT, MPI_COMM_SELF)) == MPI_ERR_TRUNCATE);
    CHECK(class_of(MPI_Unpack(row, -16, &position, data, 1, MPI_INT, MPI_COMM_SELF)) == MPI_ERR_ARG);
    CHECK(class_of(MPI_Pack_external("native", data, 1, MPI_INT, row, 16, &place)) == MPI_ERR_ARG);
    CHECK(class_of(MPI_Pack_external("external32", data, 4, MPI_INT, row, 16, &place)) == MPI_ERR_TRUNCATE);
    CHECK(class_of(MPI_Unpack_external("external32", row, 16, &place, data, 4, MPI_INT)) == MPI_ERR_TRUNCATE);
    CHECK(position == 3 && place == 3 && is_all(row, 16, 9) && data[0] == 1 && data[3] == 4);
}

static void check_statuses(void) {
    MPI_Status status;
    int count = 0;
    MPI_Status_set_elements(&status, MPI_INT, 5);
    CHECK(class_of(MPI_Status_set_elements(&status, MPI_INT, -1)) == MPI_ERR_COUNT);
    CHECK(class_of(MPI_Status_set_elements_x(&status, MPI_DOUBLE, LLONG_MAX)) == MPI_ERR_COUNT);
    CHECK(class_of(MPI_Status_set_elements(&status, MPI_DATATYPE_NULL, 1)) == MPI_ERR_TYPE);
    MPI_Get_elements(&status, MPI_INT, &count);
    CHECK(count == 5);
}

int main(int argc, char **argv) {
    test_begin(&argc, &argv);
    return_errors();
    MPI_Comm_set_errhandler(MPI_COMM_SELF, MPI_ERRORS_RETURN);
    check_constructors();
    check_arrays();
    check_large();
    check_lives();
    check_packing();
    check_statuses();
    return test_end();
}
