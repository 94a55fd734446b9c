/* Types of parts of arrays (MPI 3.1, 4.1.3 and 4.1.4). */
#include "errors.h"
#include "internal.h"
#include "type_makers.h"

#include <stdlib.h>

/* The part of one dimension: `count` blocks of `length` places, each `stride` places behind the one before it, then
 * `rest` places; the first one from place `from` on, of `size` places. */
struct slice {
    ptrdiff_t from, size, stride;
    size_t count, length, rest;
};

/* The type of a slice of items of an older type, which is given up: 0, or the class of the error, of which was told.
 * Its bounds are those of all places. */
static int slice_type(const char *call, struct datatype *old, struct slice slice, struct datatype **made) {
    struct maker maker;
    const ptrdiff_t extent = old->layout.numbers.extent;
    maker_begin(&maker, call, MPI_COMBINER_NAMED, 0, 0, 1);
    maker_note_type(&maker, old);
    maker_blocks(&maker, old, slice.from, slice.count, slice.length, slice.stride, extent);
    maker_block(&maker, old, slice.from + (ptrdiff_t)slice.count * slice.stride, extent, slice.rest);
    making_resize(&maker.making, 0, slice.size, extent);
    int class = maker_end(&maker, made);
    release_type(old);
    return class;
}

/* The type of all slices, of which that of the dimension that varies fastest is taken first: 0, or the class of the
 * error, of which was told. */
static int slices_type(const char *call, struct datatype *old, const struct slice *slices, int ndims, int order,
                       struct datatype **made) {
    int class = MPI_SUCCESS;
    *made = old;
    hold_type(old);
    for (int i = 0; i < ndims && class == MPI_SUCCESS; i++)
        class = slice_type(call, *made, slices[order == MPI_ORDER_C ? ndims - 1 - i : i], made);
    return class;
}

/* Hands out the type of an array whose entries are noted: it is that of its slices. */
static int hand_out_array(struct maker *maker, struct datatype *old, const struct slice *slices, int ndims, int order,
                          MPI_Datatype *newtype) {
    struct datatype *part;
    int class = slices_type(maker->call, old, slices, ndims, order, &part);
    if (class != MPI_SUCCESS) {
        if (maker->type != NULL) release_type(maker->type);
        return class;
    }
    maker_note_type(maker, old);
    maker_copy(maker, part);
    release_type(part);
    return maker_hand_out(maker, newtype);
}

static int check_array(const char *call, int ndims, int order, MPI_Datatype oldtype, const MPI_Datatype *newtype,
                       struct datatype **old) {
    int class = check_making(call, oldtype, newtype, old);
    if (class != MPI_SUCCESS) return class;
    if (ndims < 1) return raise_on(MPI_COMM_WORLD, call, MPI_ERR_ARG, "ndims is %d", ndims);
    if (order == MPI_ORDER_C || order == MPI_ORDER_FORTRAN) return MPI_SUCCESS;
    return raise_on(MPI_COMM_WORLD, call, MPI_ERR_ARG, "order is %d", order);
}

/* That an entry of a list is within these bounds. */
static int check_entry(const char *call, const char *name, int at, int number, long long least, long long most) {
    if (number >= least && number <= most) return MPI_SUCCESS;
    return raise_on(MPI_COMM_WORLD, call, MPI_ERR_ARG, "%s[%d] is %d, not from %lld to %lld", name, at, number, least,
                    most);
}

/* ---- subarrays ---- */

/* The slice of a dimension of which a part is taken. */
static int find_part(const char *call, int at, int size, int subsize, int start, struct slice *found) {
    int class = check_entry(call, "array_of_sizes", at, size, 1, INT32_MAX);
    if (class == MPI_SUCCESS) class = check_entry(call, "array_of_subsizes", at, subsize, 1, size);
    if (class == MPI_SUCCESS) class = check_entry(call, "array_of_starts", at, start, 0, size - subsize);
    *found = (struct slice){.from = start, .rest = (size_t)subsize, .size = size};
    return class;
}

int MPI_Type_create_subarray(int ndims, const int array_of_sizes[], const int array_of_subsizes[],
                             const int array_of_starts[], int order, MPI_Datatype oldtype, MPI_Datatype *newtype) {
    NOTE_CALLER();
    const char *call = "MPI_Type_create_subarray";
    struct datatype *old;
    struct maker maker;
    int class = check_array(call, ndims, order, oldtype, newtype, &old);
    if (class == MPI_SUCCESS) class = check_list(call, "array_of_sizes", array_of_sizes, ndims);
    if (class == MPI_SUCCESS) class = check_list(call, "array_of_subsizes", array_of_subsizes, ndims);
    if (class == MPI_SUCCESS) class = check_list(call, "array_of_starts", array_of_starts, ndims);
    if (class != MPI_SUCCESS) return class;
    struct slice *slices = calloc((size_t)ndims, sizeof *slices);
    if (slices == NULL) return raise_on(MPI_COMM_WORLD, call, MPI_ERR_NO_MEM, "no memory for %d dimensions", ndims);
    for (int i = 0; i < ndims && class == MPI_SUCCESS; i++)
        class = find_part(call, i, array_of_sizes[i], array_of_subsizes[i], array_of_starts[i], &slices[i]);
    if (class == MPI_SUCCESS) {
        maker_begin(&maker, call, MPI_COMBINER_SUBARRAY, 3 * (size_t)ndims + 2, 0, 1);
        maker_note(&maker, ndims);
        maker_note_all(&maker, array_of_sizes, ndims);
        maker_note_all(&maker, array_of_subsizes, ndims);
        maker_note_all(&maker, array_of_starts, ndims);
        maker_note(&maker, order);
        class = hand_out_array(&maker, old, slices, ndims, order, newtype);
    }
    free(slices);
    return class;
}

/* ---- distributed arrays ---- */

/* A dimension of an array that is distributed over processes: the argument, or MPI_DISTRIBUTE_DFLT_DARG. */
struct distributed {
    int gsize, distrib, darg, psize;
};

static int check_distribution(const char *call, int at, struct distributed of) {
    int class = check_entry(call, "array_of_gsizes", at, of.gsize, 1, INT32_MAX);
    if (class == MPI_SUCCESS) class = check_entry(call, "array_of_psizes", at, of.psize, 1, INT32_MAX);
    if (class == MPI_SUCCESS)
        class = check_entry(call, "array_of_distribs", at, of.distrib, MPI_DISTRIBUTE_NONE, MPI_DISTRIBUTE_CYCLIC);
    if (class != MPI_SUCCESS) return class;
    /* A dimension that isn't distributed is on one process; the blocks of the others are to hold all of it. */
    if (of.distrib == MPI_DISTRIBUTE_NONE) return check_entry(call, "array_of_psizes", at, of.psize, 1, 1);
    if (of.darg == MPI_DISTRIBUTE_DFLT_DARG) return MPI_SUCCESS;
    long long least = of.distrib == MPI_DISTRIBUTE_BLOCK ? ((long long)of.gsize + of.psize - 1) / of.psize : 1;
    return check_entry(call, "array_of_dargs", at, of.darg, least, INT32_MAX);
}

/* What the process at a place of the grid has of a dimension: blocks, of which it has every psize-th one. The numbers
 * were checked, so there is such a share. */
static struct slice share_of(struct distributed of, int place) {
    ptrdiff_t length = of.darg, all = of.gsize;
    uint64_t blocks = 0, rest = 0;
    if (of.distrib == MPI_DISTRIBUTE_NONE) length = all;
    else if (of.darg == MPI_DISTRIBUTE_DFLT_DARG)
        length = of.distrib == MPI_DISTRIBUTE_BLOCK ? (all + of.psize - 1) / of.psize : 1;
    (void)kombazily_type_share((uint64_t)all, (uint64_t)length, (uint64_t)of.psize, (uint64_t)place, &blocks, &rest);
    return (struct slice){.from = place * length,
                          .size = all,
                          .stride = of.psize * length,
                          .count = blocks,
                          .length = (size_t)length,
                          .rest = rest};
}

/* Checks the sizes of the grid: together they are that of the group. */
static int check_grid(const char *call, int size, int rank, int ndims, const int *psizes) {
    if (size < 1) return raise_on(MPI_COMM_WORLD, call, MPI_ERR_ARG, "size is %d", size);
    if (rank < 0 || rank >= size) return raise_on(MPI_COMM_WORLD, call, MPI_ERR_ARG, "rank is %d of %d", rank, size);
    long long all = 1;
    for (int i = 0; i < ndims && all <= size; i++) all *= psizes[i];
    if (all == size) return MPI_SUCCESS;
    return raise_on(MPI_COMM_WORLD, call, MPI_ERR_ARG, "the product of array_of_psizes isn't size, %d", size);
}

/* Checks what tells how an array is distributed, and finds the dimensions. */
static int find_dimensions(const char *call, int size, int rank, int ndims, const int *const lists[4],
                           struct distributed *found) {
    static const char *const names[] = {"array_of_gsizes", "array_of_distribs", "array_of_dargs", "array_of_psizes"};
    int class = MPI_SUCCESS;
    for (int list = 0; list < 4 && class == MPI_SUCCESS; list++)
        class = check_list(call, names[list], lists[list], ndims);
    for (int i = 0; i < ndims && class == MPI_SUCCESS; i++) {
        found[i] = (struct distributed){lists[0][i], lists[1][i], lists[2][i], lists[3][i]};
        class = check_distribution(call, i, found[i]);
    }
    return class == MPI_SUCCESS ? check_grid(call, size, rank, ndims, lists[3]) : class;
}

/* Makes the type; the grid of processes is in the order of C, whatever that of the array is (4.1.4). */
static int make_darray(const char *call, int size, int rank, int ndims, const int *const lists[4], int order,
                       struct datatype *old, struct distributed *dimensions, struct slice *shares,
                       MPI_Datatype *newtype) {
    struct maker maker;
    int class = find_dimensions(call, size, rank, ndims, lists, dimensions);
    if (class != MPI_SUCCESS) return class;
    for (int i = 0, below = size, left = rank; i < ndims; left %= below, i++) {
        below /= dimensions[i].psize;
        shares[i] = share_of(dimensions[i], left / below);
    }
    maker_begin(&maker, call, MPI_COMBINER_DARRAY, 4 * (size_t)ndims + 4, 0, 1);
    maker_note_all(&maker, (int[]){size, rank, ndims}, 3);
    for (int list = 0; list < 4; list++) maker_note_all(&maker, lists[list], ndims);
    maker_note(&maker, order);
    return hand_out_array(&maker, old, shares, ndims, order, newtype);
}

int MPI_Type_create_darray(int size, int rank, int ndims, const int array_of_gsizes[], const int array_of_distribs[],
                           const int array_of_dargs[], const int array_of_psizes[], int order, MPI_Datatype oldtype,
                           MPI_Datatype *newtype) {
    NOTE_CALLER();
    const char *call = "MPI_Type_create_darray";
    const int *const lists[4] = {array_of_gsizes, array_of_distribs, array_of_dargs, array_of_psizes};
    struct datatype *old;
    int class = check_array(call, ndims, order, oldtype, newtype, &old);
    if (class != MPI_SUCCESS) return class;
    struct distributed *dimensions = calloc((size_t)ndims, sizeof *dimensions);
    struct slice *shares = calloc((size_t)ndims, sizeof *shares);
    if (dimensions == NULL || shares == NULL)
        class = raise_on(MPI_COMM_WORLD, call, MPI_ERR_NO_MEM, "no memory for %d dimensions", ndims);
    else class = make_darray(call, size, rank, ndims, lists, order, old, dimensions, shares, newtype);
    free(dimensions);
    free(shares);
    return class;
}
