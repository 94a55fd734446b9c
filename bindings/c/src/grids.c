/* Cartesian topologies (MPI 3.1, 7.5.1, 7.5.2, 7.5.5 to 7.5.7): what is decided of a grid is Rattle's (engine_grids.h);
 * here stand checks of arguments, and the communicators. */
#include "engine_grids.h"
#include "errors.h"
#include "internal.h"
#include "topologies.h"

#include <limits.h>
#include <stdlib.h>

/* Room for so many objects; for one at least, so that an address is there. */
static void *room_for(int count, size_t size) { return calloc(count > 0 ? (size_t)count : 1, size); }

/* Answers a number of the grid's. */
static int raise_grid(MPI_Comm comm, const char *call, uint32_t number) {
    static const struct {
        int class;
        const char *cause;
    } causes[] = {
        {MPI_ERR_DIMS, "a dimension without a place, or a grid of 2^31 places or more"},
        {MPI_ERR_ARG, "no such place in the grid"},
        {MPI_ERR_RANK, "no such rank in the grid"},
        {MPI_ERR_ARG, "not one number for each dimension"},
        {MPI_ERR_DIMS, "no sizes fill those that are given up to the number of nodes"},
    };
    const unsigned place = number - GRID_NO_GRID;
    return raise_on(comm, call, causes[place].class, "%s (%u)", causes[place].cause, (unsigned)number);
}

/* Makes a topology of a grid: 0, or the class of an error, of which it has told the handler. */
static int make_grid(MPI_Comm comm, const char *call, int ndims, const int dims[], const int periods[],
                     struct topology **made) {
    *made = new_topology(MPI_CART);
    struct grid *grid = *made == NULL ? NULL : &(*made)->grid;
    if (grid != NULL)
        *grid = (struct grid){ndims, room_for(ndims, sizeof *grid->sizes), room_for(ndims, sizeof *grid->rings)};
    if (grid == NULL || grid->sizes == NULL || grid->rings == NULL) {
        release_topology(*made);
        return raise_on(comm, call, MPI_ERR_NO_MEM, "no memory for a topology");
    }
    for (int at = 0; at < ndims; at++) {
        grid->sizes[at] = (uint32_t)dims[at];
        grid->rings[at] = periods[at] != 0;
    }
    return MPI_SUCCESS;
}

/* Checks the sizes of a grid, and counts its places, of which there may be as many as members. */
static int count_places(MPI_Comm comm, const char *call, int ndims, const int dims[], const int periods[],
                        int *places) {
    const struct communicator *own = communicator_of(comm);
    if (ndims < 0) return raise_on(comm, call, MPI_ERR_DIMS, "a grid of %d dimensions", ndims);
    int class = MPI_SUCCESS;
    if (ndims > 0) class = check_result(comm, call, dims, "dims");
    if (class == MPI_SUCCESS && ndims > 0) class = check_result(comm, call, periods, "periods");
    if (class != MPI_SUCCESS) return class;
    for (int at = 0; at < ndims; at++)
        if (dims[at] <= 0) return raise_on(comm, call, MPI_ERR_DIMS, "a dimension of %d places", dims[at]);
    static const uint32_t none;
    uint32_t count = 0;
    uint32_t number = kombazily_grid_places(ndims > 0 ? (const uint32_t *)dims : &none, (size_t)ndims, &count);
    if (number != 0) return raise_grid(comm, call, number);
    if (count > (uint32_t)own->size)
        return raise_on(comm, call, MPI_ERR_DIMS, "a grid of %u places for %d ranks", (unsigned)count, own->size);
    *places = (int)count;
    return MPI_SUCCESS;
}

int MPI_Cart_create(MPI_Comm comm_old, int ndims, const int dims[], const int periods[], int reorder,
                    MPI_Comm *comm_cart) {
    NOTE_CALLER();
    static const char call[] = "MPI_Cart_create";
    struct communicator *own;
    struct topology *made;
    int places = 0;
    (void)reorder; /* ranks stay as they are, which any program has to live with (7.5.1) */
    check_running(call);
    int class = check_comm(comm_old, call, &own);
    if (class == MPI_SUCCESS) class = check_result(comm_old, call, comm_cart, "comm_cart");
    if (class == MPI_SUCCESS) class = count_places(comm_old, call, ndims, dims, periods, &places);
    if (class == MPI_SUCCESS) class = make_grid(comm_old, call, ndims, dims, periods, &made);
    return class != MPI_SUCCESS ? class : make_with_topology(comm_old, call, places, made, comm_cart);
}

int MPI_Cart_map(MPI_Comm comm, int ndims, const int dims[], const int periods[], int *newrank) {
    NOTE_CALLER();
    static const char call[] = "MPI_Cart_map";
    struct communicator *own;
    int places = 0;
    check_running(call);
    int class = check_comm(comm, call, &own);
    if (class == MPI_SUCCESS) class = check_result(comm, call, newrank, "newrank");
    if (class == MPI_SUCCESS) class = count_places(comm, call, ndims, dims, periods, &places);
    if (class == MPI_SUCCESS) *newrank = own->rank < places ? own->rank : MPI_UNDEFINED;
    return class;
}

int MPI_Dims_create(int nnodes, int ndims, int dims[]) {
    NOTE_CALLER();
    static const char call[] = "MPI_Dims_create";
    check_running(call);
    if (ndims < 0) return raise_on(MPI_COMM_WORLD, call, MPI_ERR_DIMS, "a grid of %d dimensions", ndims);
    if (nnodes <= 0) return raise_on(MPI_COMM_WORLD, call, MPI_ERR_ARG, "a grid of %d nodes", nnodes);
    if (ndims == 0) return MPI_SUCCESS;
    int class = check_result(MPI_COMM_WORLD, call, dims, "dims");
    if (class != MPI_SUCCESS) return class;
    for (int at = 0; at < ndims; at++)
        if (dims[at] < 0) return raise_on(MPI_COMM_WORLD, call, MPI_ERR_DIMS, "a dimension of %d places", dims[at]);
    uint32_t number = kombazily_grid_balance((uint32_t)nnodes, (uint32_t *)dims, (size_t)ndims);
    return number == 0 ? MPI_SUCCESS : raise_grid(MPI_COMM_WORLD, call, number);
}

int MPI_Cartdim_get(MPI_Comm comm, int *ndims) {
    NOTE_CALLER();
    static const char call[] = "MPI_Cartdim_get";
    struct communicator *own;
    check_running(call);
    int class = check_topology(comm, call, MPI_CART, &own);
    if (class == MPI_SUCCESS) class = check_result(comm, call, ndims, "ndims");
    if (class == MPI_SUCCESS) *ndims = own->topology->grid.dimensions;
    return class;
}

/* Puts the coordinates of a rank, as many as there is room for. */
static int put_coordinates(MPI_Comm comm, const char *call, const struct grid *grid, int rank, int most, int *coords) {
    uint32_t *all = room_for(grid->dimensions, sizeof *all);
    if (all == NULL) return raise_on(comm, call, MPI_ERR_NO_MEM, "no memory for coordinates");
    const size_t count = (size_t)grid->dimensions;
    uint32_t number = kombazily_grid_coordinates(grid->sizes, count, (uint32_t)rank, all, count);
    for (int at = 0; number == 0 && at < grid->dimensions && at < most; at++) coords[at] = (int)all[at];
    free(all);
    return number == 0 ? MPI_SUCCESS : raise_grid(comm, call, number);
}

int MPI_Cart_get(MPI_Comm comm, int maxdims, int dims[], int periods[], int coords[]) {
    NOTE_CALLER();
    static const char call[] = "MPI_Cart_get";
    struct communicator *own;
    check_running(call);
    int class = check_topology(comm, call, MPI_CART, &own);
    if (class != MPI_SUCCESS) return class;
    const struct grid *grid = &own->topology->grid;
    if (maxdims < 0) return raise_on(comm, call, MPI_ERR_ARG, "room for %d dimensions", maxdims);
    const bool is_read = maxdims > 0 && grid->dimensions > 0;
    if (is_read) class = check_result(comm, call, dims, "dims");
    if (is_read && class == MPI_SUCCESS) class = check_result(comm, call, periods, "periods");
    if (is_read && class == MPI_SUCCESS) class = check_result(comm, call, coords, "coords");
    if (class != MPI_SUCCESS) return class;
    for (int at = 0; at < grid->dimensions && at < maxdims; at++) {
        dims[at] = (int)grid->sizes[at];
        periods[at] = grid->rings[at];
    }
    return put_coordinates(comm, call, grid, own->rank, maxdims, coords);
}

int MPI_Cart_rank(MPI_Comm comm, const int coords[], int *rank) {
    NOTE_CALLER();
    static const char call[] = "MPI_Cart_rank";
    struct communicator *own;
    uint32_t found = 0;
    check_running(call);
    int class = check_topology(comm, call, MPI_CART, &own);
    if (class == MPI_SUCCESS) class = check_result(comm, call, rank, "rank");
    if (class != MPI_SUCCESS) return class;
    const struct grid *grid = &own->topology->grid;
    if (grid->dimensions > 0) class = check_result(comm, call, coords, "coords");
    if (class != MPI_SUCCESS) return class;
    static const int32_t none;
    const size_t count = (size_t)grid->dimensions;
    uint32_t number =
        kombazily_grid_rank(grid->sizes, count, grid->rings, count, count > 0 ? coords : &none, count, &found);
    if (number != 0) return raise_grid(comm, call, number);
    *rank = (int)found;
    return MPI_SUCCESS;
}

int MPI_Cart_coords(MPI_Comm comm, int rank, int maxdims, int coords[]) {
    NOTE_CALLER();
    static const char call[] = "MPI_Cart_coords";
    struct communicator *own;
    check_running(call);
    int class = check_topology(comm, call, MPI_CART, &own);
    if (class != MPI_SUCCESS) return class;
    const struct grid *grid = &own->topology->grid;
    if (rank < 0 || rank >= own->size)
        return raise_on(comm, call, MPI_ERR_RANK, "rank %d of a communicator of %d", rank, own->size);
    if (maxdims < grid->dimensions)
        return raise_on(comm, call, MPI_ERR_ARG, "room for %d of %d coordinates", maxdims, grid->dimensions);
    if (grid->dimensions > 0) class = check_result(comm, call, coords, "coords");
    return class != MPI_SUCCESS ? class : put_coordinates(comm, call, grid, rank, maxdims, coords);
}

/* The rank to which a displacement leads, or MPI_PROC_NULL. */
static uint32_t find_shifted(const struct communicator *own, int direction, int displacement, int *found) {
    const struct grid *grid = &own->topology->grid;
    const size_t count = (size_t)grid->dimensions;
    uint32_t to = 0;
    uint32_t number = kombazily_grid_shift(grid->sizes, count, grid->rings, count, (uint32_t)own->rank,
                                           (size_t)direction, displacement, &to);
    *found = number == 0 ? (int)to : MPI_PROC_NULL;
    return number == GRID_NO_PLACE ? 0 : number;
}

int MPI_Cart_shift(MPI_Comm comm, int direction, int disp, int *rank_source, int *rank_dest) {
    NOTE_CALLER();
    static const char call[] = "MPI_Cart_shift";
    struct communicator *own;
    check_running(call);
    int class = check_topology(comm, call, MPI_CART, &own);
    if (class == MPI_SUCCESS) class = check_result(comm, call, rank_source, "rank_source");
    if (class == MPI_SUCCESS) class = check_result(comm, call, rank_dest, "rank_dest");
    if (class != MPI_SUCCESS) return class;
    const int dimensions = own->topology->grid.dimensions;
    if (direction < 0 || direction >= dimensions)
        return raise_on(comm, call, MPI_ERR_ARG, "dimension %d of %d", direction, dimensions);
    if (disp == INT_MIN) return raise_on(comm, call, MPI_ERR_ARG, "a displacement of %d", disp);
    uint32_t number = find_shifted(own, direction, disp, rank_dest);
    if (number == 0) number = find_shifted(own, direction, -disp, rank_source);
    return number == 0 ? MPI_SUCCESS : raise_grid(comm, call, number);
}

/* Makes a grid of the dimensions that are kept. */
static int keep_dimensions(MPI_Comm comm, const char *call, const struct grid *grid, const int remain_dims[],
                           struct topology **made) {
    int *sizes = room_for(grid->dimensions, sizeof *sizes), *rings = room_for(grid->dimensions, sizeof *rings);
    int kept = 0, class;
    for (int at = 0; sizes != NULL && rings != NULL && at < grid->dimensions; at++) {
        if (!remain_dims[at]) continue;
        sizes[kept] = (int)grid->sizes[at];
        rings[kept++] = grid->rings[at];
    }
    if (sizes == NULL || rings == NULL) class = raise_on(comm, call, MPI_ERR_NO_MEM, "no memory for a topology");
    else class = make_grid(comm, call, kept, sizes, rings, made);
    free(sizes);
    free(rings);
    return class;
}

/* In which part of the grid this rank is, and which place it has there. */
static int find_part(MPI_Comm comm, const char *call, const int remain_dims[], struct engine_call *entry) {
    const struct communicator *own = communicator_of(comm);
    const struct grid *grid = &own->topology->grid;
    const size_t count = (size_t)grid->dimensions;
    uint32_t part = 0, within = 0;
    bool *keeps = room_for(grid->dimensions, sizeof *keeps);
    if (keeps == NULL) return raise_on(comm, call, MPI_ERR_NO_MEM, "no memory for a topology");
    for (size_t at = 0; at < count; at++) keeps[at] = remain_dims[at] != 0;
    uint32_t number = kombazily_grid_part(grid->sizes, count, keeps, count, (uint32_t)own->rank, &part, &within);
    free(keeps);
    if (number != 0) return raise_grid(comm, call, number);
    entry->colour = (int32_t)part;
    entry->order = (int32_t)within;
    return MPI_SUCCESS;
}

int MPI_Cart_sub(MPI_Comm comm, const int remain_dims[], MPI_Comm *newcomm) {
    NOTE_CALLER();
    static const char call[] = "MPI_Cart_sub";
    struct communicator *own;
    struct topology *made = NULL;
    struct engine_call entry = {.kind = ENGINE_SPLIT};
    check_running(call);
    int class = check_topology(comm, call, MPI_CART, &own);
    if (class == MPI_SUCCESS) class = check_result(comm, call, newcomm, "newcomm");
    if (class != MPI_SUCCESS) return class;
    const struct grid *grid = &own->topology->grid;
    if (grid->dimensions > 0) class = check_result(comm, call, remain_dims, "remain_dims");
    if (class == MPI_SUCCESS) class = find_part(comm, call, remain_dims, &entry);
    if (class == MPI_SUCCESS) class = keep_dimensions(comm, call, grid, remain_dims, &made);
    if (class != MPI_SUCCESS) return class;
    class = make_communicator(comm, call, &entry, newcomm);
    if (class == MPI_SUCCESS) communicator_of(*newcomm)->topology = made;
    else release_topology(made);
    return class;
}
