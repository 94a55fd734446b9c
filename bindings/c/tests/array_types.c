/* Types of parts of arrays (MPI 3.1, 4.1.3 and 4.1.4), beside loops over their places. */
#include "test.h"

enum { MOST = 1000 };

/* Checks that the data of an item are these integers of an array, in this order; frees the type. */
static void check_array(MPI_Datatype type, int all, const int *places, int count) {
    int from[MOST], row[MOST], size = -1;
    MPI_Aint lower = -1, extent = -1;
    for (int i = 0; i < MOST; i++) from[i] = 7 * i;
    memset(row, 0, sizeof row);
    MPI_Type_size(type, &size);
    MPI_Type_get_extent(type, &lower, &extent);
    CHECK(size == 4 * count && lower == 0 && extent == 4 * all);
    MPI_Type_commit(&type);
    MPI_Sendrecv(from, 1, type, test_rank, 0, row, MOST, MPI_INT, test_rank, 0, MPI_COMM_WORLD, MPI_STATUS_IGNORE);
    for (int i = 0; i < count; i++) CHECK(row[i] == 7 * places[i]);
    CHECK(is_all(row + count, (size_t)(MOST - count) * 4, 0));
    MPI_Type_free(&type);
}

/* The place of an entry in an array in one of the two orders. */
static int place_of(int ndims, const int *sizes, const int *at, int order) {
    int place = 0;
    for (int i = 0; i < ndims; i++) {
        int d = order == MPI_ORDER_C ? i : ndims - 1 - i;
        place = place * sizes[d] + at[d];
    }
    return place;
}

/* The next entry in this order, from within `first` and `first + sizes`; false behind the last one. */
static bool go_on(int ndims, const int *first, const int *sizes, int *at, int order) {
    for (int i = 0; i < ndims; i++) {
        int d = order == MPI_ORDER_C ? ndims - 1 - i : i;
        if (++at[d] < first[d] + sizes[d]) return true;
        at[d] = first[d];
    }
    return false;
}

static void check_subarray(int ndims, const int *sizes, const int *subsizes, const int *starts, int order) {
    int places[MOST], count = 0, all = 1, at[4];
    MPI_Datatype type;
    memcpy(at, starts, (size_t)ndims * sizeof *at);
    do places[count++] = place_of(ndims, sizes, at, order);
    while (go_on(ndims, starts, subsizes, at, order));
    for (int i = 0; i < ndims; i++) all *= sizes[i];
    MPI_Type_create_subarray(ndims, sizes, subsizes, starts, order, MPI_INT, &type);
    check_array(type, all, places, count);
}

static void check_subarrays(void) {
    const int orders[] = {MPI_ORDER_C, MPI_ORDER_FORTRAN};
    for (int i = 0; i < 2; i++) {
        check_subarray(1, (int[]){9}, (int[]){4}, (int[]){3}, orders[i]);
        check_subarray(2, (int[]){5, 7}, (int[]){3, 2}, (int[]){1, 4}, orders[i]);
        check_subarray(3, (int[]){4, 5, 6}, (int[]){2, 5, 3}, (int[]){2, 0, 1}, orders[i]);
        check_subarray(3, (int[]){4, 5, 6}, (int[]){4, 5, 6}, (int[]){0, 0, 0}, orders[i]);
        check_subarray(4, (int[]){3, 4, 5, 6}, (int[]){1, 3, 2, 4}, (int[]){2, 1, 3, 0}, orders[i]);
    }
}

/* Whose an entry of a dimension is, of so many processes. */
static int owner(int entry, int gsize, int distrib, int darg, int psize) {
    if (distrib == MPI_DISTRIBUTE_NONE) return 0;
    if (darg == MPI_DISTRIBUTE_DFLT_DARG) darg = distrib == MPI_DISTRIBUTE_BLOCK ? (gsize + psize - 1) / psize : 1;
    return entry / darg % psize;
}

static void check_darray(int ndims, const int *gsizes, const int *distribs, const int *dargs, const int *psizes,
                         int order) {
    int all = 1, size = 1;
    const int none[4] = {0};
    for (int i = 0; i < ndims; i++) all *= gsizes[i], size *= psizes[i];
    for (int rank = 0; rank < size; rank++) {
        int places[MOST], count = 0, at[4] = {0}, grid[4];
        MPI_Datatype type;
        for (int i = ndims - 1, left = rank; i >= 0; left /= psizes[i--]) grid[i] = left % psizes[i];
        do {
            bool is_own = true;
            for (int i = 0; i < ndims; i++)
                if (owner(at[i], gsizes[i], distribs[i], dargs[i], psizes[i]) != grid[i]) is_own = false;
            if (is_own) places[count++] = place_of(ndims, gsizes, at, order);
        } while (go_on(ndims, none, gsizes, at, order));
        MPI_Type_create_darray(size, rank, ndims, gsizes, distribs, dargs, psizes, order, MPI_INT, &type);
        check_array(type, all, places, count);
    }
}

static void check_darrays(void) {
    enum { NONE = MPI_DISTRIBUTE_NONE, BLOCK = MPI_DISTRIBUTE_BLOCK, CYCLIC = MPI_DISTRIBUTE_CYCLIC };
    const int any = MPI_DISTRIBUTE_DFLT_DARG, orders[] = {MPI_ORDER_C, MPI_ORDER_FORTRAN};
    for (int i = 0; i < 2; i++) {
        check_darray(1, (int[]){17}, (int[]){BLOCK}, (int[]){any}, (int[]){4}, orders[i]);
        check_darray(1, (int[]){17}, (int[]){BLOCK}, (int[]){9}, (int[]){4}, orders[i]);
        check_darray(1, (int[]){17}, (int[]){CYCLIC}, (int[]){any}, (int[]){3}, orders[i]);
        check_darray(1, (int[]){17}, (int[]){CYCLIC}, (int[]){4}, (int[]){3}, orders[i]);
        check_darray(2, (int[]){7, 10}, (int[]){BLOCK, CYCLIC}, (int[]){any, 2}, (int[]){2, 3}, orders[i]);
        check_darray(2, (int[]){7, 10}, (int[]){NONE, CYCLIC}, (int[]){any, 3}, (int[]){1, 4}, orders[i]);
        check_darray(3, (int[]){5, 6, 7}, (int[]){CYCLIC, BLOCK, CYCLIC}, (int[]){2, 4, 3}, (int[]){3, 2, 2},
                     orders[i]);
        check_darray(3, (int[]){2, 3, 2}, (int[]){BLOCK, CYCLIC, NONE}, (int[]){any, any, any}, (int[]){4, 5, 1},
                     orders[i]);
    }
}

/* Arrays of items that aren't at the begin of their extent. */
static void check_shifted(void) {
    MPI_Datatype shifted, type;
    MPI_Type_indexed(1, (int[]){1}, (int[]){1}, MPI_INT, &type);
    MPI_Type_create_resized(type, 0, 8, &shifted);
    MPI_Type_free(&type);
    MPI_Type_create_subarray(2, (int[]){3, 4}, (int[]){2, 2}, (int[]){1, 1}, MPI_ORDER_C, shifted, &type);
    MPI_Type_free(&shifted);
    check_array(type, 24, (int[]){11, 13, 19, 21}, 4);
}

int main(int argc, char **argv) {
    test_begin(&argc, &argv);
    check_subarrays();
    check_darrays();
    check_shifted();
    return test_end();
}
