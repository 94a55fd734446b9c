/* How types were made (MPI 3.1, 4.1.13): each constructor's arguments, in their order. */
#include "test.h"

enum { MOST = 40 };

/* The contents of a type that was made by this combiner, of so many entries; frees it. */
struct contents {
    int integers[MOST];
    MPI_Aint addresses[MOST];
    MPI_Datatype types[MOST];
};
static struct contents contents_of(MPI_Datatype type, int combiner, int integers, int addresses, int types) {
    struct contents found = {0};
    int counts[3] = {-1, -1, -1}, told = -1;
    MPI_Type_get_envelope(type, &counts[0], &counts[1], &counts[2], &told);
    CHECK(told == combiner && counts[0] == integers && counts[1] == addresses && counts[2] == types);
    MPI_Type_get_contents(type, integers, addresses, types, found.integers, found.addresses, found.types);
    MPI_Type_free(&type);
    return found;
}

static bool are_integers(const struct contents *found, const int *wanted, int count) {
    return memcmp(found->integers, wanted, (size_t)count * sizeof *wanted) == 0;
}
static bool are_addresses(const struct contents *found, const MPI_Aint *wanted, int count) {
    return memcmp(found->addresses, wanted, (size_t)count * sizeof *wanted) == 0;
}

static void check_simple(void) {
    MPI_Datatype made;
    struct contents found;
    MPI_Type_contiguous(4, MPI_INT, &made);
    found = contents_of(made, MPI_COMBINER_CONTIGUOUS, 1, 0, 1);
    CHECK(found.integers[0] == 4 && found.types[0] == MPI_INT);
    MPI_Type_dup(MPI_DOUBLE, &made);
    found = contents_of(made, MPI_COMBINER_DUP, 0, 0, 1);
    CHECK(found.types[0] == MPI_DOUBLE);
    MPI_Type_create_resized(MPI_SHORT, -4, 12, &made);
    found = contents_of(made, MPI_COMBINER_RESIZED, 0, 2, 1);
    CHECK(are_addresses(&found, (MPI_Aint[]){-4, 12}, 2) && found.types[0] == MPI_SHORT);
    MPI_Type_vector(2, 3, -7, MPI_CHAR, &made);
    found = contents_of(made, MPI_COMBINER_VECTOR, 3, 0, 1);
    CHECK(are_integers(&found, (int[]){2, 3, -7}, 3) && found.types[0] == MPI_CHAR);
    MPI_Type_create_hvector(5, 6, 70, MPI_CHAR, &made);
    found = contents_of(made, MPI_COMBINER_HVECTOR, 2, 1, 1);
    CHECK(are_integers(&found, (int[]){5, 6}, 2) && found.addresses[0] == 70);
}

static void check_blocks(void) {
    MPI_Datatype made;
    struct contents found;
    int lengths[] = {1, 0, 2}, places[] = {5, -6, 7};
    MPI_Aint addresses[] = {-8, 9, 100};
    MPI_Type_indexed(3, lengths, places, MPI_INT, &made);
    found = contents_of(made, MPI_COMBINER_INDEXED, 7, 0, 1);
    CHECK(are_integers(&found, (int[]){3, 1, 0, 2, 5, -6, 7}, 7) && found.types[0] == MPI_INT);
    MPI_Type_create_hindexed(3, lengths, addresses, MPI_INT, &made);
    found = contents_of(made, MPI_COMBINER_HINDEXED, 4, 3, 1);
    CHECK(are_integers(&found, (int[]){3, 1, 0, 2}, 4) && are_addresses(&found, addresses, 3));
    MPI_Type_create_indexed_block(3, 4, places, MPI_INT, &made);
    found = contents_of(made, MPI_COMBINER_INDEXED_BLOCK, 5, 0, 1);
    CHECK(are_integers(&found, (int[]){3, 4, 5, -6, 7}, 5));
    MPI_Type_create_hindexed_block(3, 4, addresses, MPI_INT, &made);
    found = contents_of(made, MPI_COMBINER_HINDEXED_BLOCK, 2, 3, 1);
    CHECK(are_integers(&found, (int[]){3, 4}, 2) && are_addresses(&found, addresses, 3));
    MPI_Type_create_struct(3, lengths, addresses, (MPI_Datatype[]){MPI_INT, MPI_CHAR, MPI_DOUBLE}, &made);
    found = contents_of(made, MPI_COMBINER_STRUCT, 4, 3, 3);
    CHECK(are_integers(&found, (int[]){3, 1, 0, 2}, 4) && are_addresses(&found, addresses, 3));
    CHECK(found.types[0] == MPI_INT && found.types[1] == MPI_CHAR && found.types[2] == MPI_DOUBLE);
}

static void check_arrays(void) {
    MPI_Datatype made;
    struct contents found;
    const int order = MPI_ORDER_FORTRAN, any = MPI_DISTRIBUTE_DFLT_DARG;
    MPI_Type_create_subarray(2, (int[]){5, 6}, (int[]){2, 3}, (int[]){1, 0}, order, MPI_INT, &made);
    found = contents_of(made, MPI_COMBINER_SUBARRAY, 8, 0, 1);
    CHECK(are_integers(&found, (int[]){2, 5, 6, 2, 3, 1, 0, order}, 8) && found.types[0] == MPI_INT);
    int distribs[] = {MPI_DISTRIBUTE_BLOCK, MPI_DISTRIBUTE_CYCLIC};
    MPI_Type_create_darray(6, 4, 2, (int[]){8, 9}, distribs, (int[]){any, 2}, (int[]){3, 2}, order, MPI_INT, &made);
    found = contents_of(made, MPI_COMBINER_DARRAY, 12, 0, 1);
    CHECK(are_integers(&found, (int[]){6, 4, 2, 8, 9, distribs[0], distribs[1], any, 2, 3, 2, order}, 12));
}

/* A type that it was made of comes with a handle of its own, although the program has freed it; what is freed of the
 * two leaves the other. */
static void check_derived(void) {
    MPI_Datatype inner, outer;
    int size = -1;
    MPI_Type_vector(2, 1, 3, MPI_INT, &inner);
    MPI_Type_contiguous(5, inner, &outer);
    MPI_Type_free(&inner);
    struct contents found = contents_of(outer, MPI_COMBINER_CONTIGUOUS, 1, 0, 1);
    MPI_Type_size(found.types[0], &size);
    CHECK(size == 8);
    found = contents_of(found.types[0], MPI_COMBINER_VECTOR, 3, 0, 1);
    CHECK(are_integers(&found, (int[]){2, 1, 3}, 3) && found.types[0] == MPI_INT);
}

static void check_refused(void) {
    MPI_Datatype made, types[1] = {MPI_CHAR};
    int integers[1] = {77};
    return_errors();
    MPI_Type_contiguous(4, MPI_INT, &made);
    CHECK(MPI_Type_get_contents(made, 0, 0, 1, integers, NULL, types) != MPI_SUCCESS);
    CHECK(MPI_Type_get_contents(made, 1, 0, 0, integers, NULL, types) != MPI_SUCCESS);
    CHECK(MPI_Type_get_contents(MPI_INT, 1, 0, 1, integers, NULL, types) != MPI_SUCCESS);
    CHECK(integers[0] == 77 && types[0] == MPI_CHAR);
    MPI_Type_free(&made);
}

int main(int argc, char **argv) {
    test_begin(&argc, &argv);
    check_simple();
    check_blocks();
    check_arrays();
    check_derived();
    check_refused();
    return test_end();
}
