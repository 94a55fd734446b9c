/* Cartesian topologies (MPI 3.1, 7.5): ranks and coordinates, neighbours, parts, balanced sizes, what is refused. */
#include "test.h"

/* Ranks count row by row, and coordinates of each are its own (7.5.5). */
static void check_places(void) {
    int dims[] = {2, 3}, periods[] = {1, 0}, coords[2] = {-1, -1}, count = 0, kind = -1;
    MPI_Comm grid;
    MPI_Cart_create(MPI_COMM_WORLD, 2, dims, periods, 1, &grid);
    CHECK((grid == MPI_COMM_NULL) == (test_rank >= 6));
    if (grid == MPI_COMM_NULL) return;
    MPI_Comm_size(grid, &count);
    CHECK(count == 6);
    for (int rank = 0; rank < 6; rank++) {
        int back = -1;
        MPI_Cart_coords(grid, rank, 2, coords);
        CHECK(coords[0] == rank / 3 && coords[1] == rank % 3);
        MPI_Cart_rank(grid, coords, &back);
        CHECK(back == rank);
        coords[0] -= 2 * (rank + 1);
        MPI_Cart_rank(grid, coords, &back);
        CHECK(back == rank);
    }
    int sizes[2] = {0, 0}, rings[2] = {7, 7}, place[2] = {-1, -1}, own = -1;
    MPI_Cartdim_get(grid, &count);
    MPI_Cart_get(grid, 2, sizes, rings, place);
    MPI_Comm_rank(grid, &own);
    MPI_Topo_test(grid, &kind);
    CHECK(count == 2 && kind == MPI_CART && sizes[0] == 2 && sizes[1] == 3 && rings[0] == 1 && rings[1] == 0);
    CHECK(place[0] == own / 3 && place[1] == own % 3);
    MPI_Comm_free(&grid);
}

/* Neighbours on a ring of three and on a line of two (7.5.6). */
static void check_shifts(void) {
    int dims[] = {3, 2}, periods[] = {1, 0}, rank, from, to, sent, got = -1;
    MPI_Comm grid;
    MPI_Cart_create(MPI_COMM_WORLD, 2, dims, periods, 0, &grid);
    if (grid == MPI_COMM_NULL) return;
    MPI_Comm_rank(grid, &rank);
    const int row = rank / 2, column = rank % 2;
    MPI_Cart_shift(grid, 0, 1, &from, &to);
    CHECK(to == (row + 1) % 3 * 2 + column && from == (row + 2) % 3 * 2 + column);
    MPI_Cart_shift(grid, 0, -4, &from, &to);
    CHECK(to == (row + 2) % 3 * 2 + column && from == (row + 1) % 3 * 2 + column);
    MPI_Cart_shift(grid, 0, 0, &from, &to);
    CHECK(to == rank && from == rank);
    MPI_Cart_shift(grid, 1, 1, &from, &to);
    CHECK(to == (column == 0 ? rank + 1 : MPI_PROC_NULL) && from == (column == 1 ? rank - 1 : MPI_PROC_NULL));
    sent = rank;
    MPI_Sendrecv(&sent, 1, MPI_INT, to, 0, &got, 1, MPI_INT, from, 0, grid, MPI_STATUS_IGNORE);
    CHECK(got == (column == 1 ? rank - 1 : -1));
    MPI_Cart_shift(grid, 1, 2, &from, &to);
    CHECK(to == MPI_PROC_NULL && from == MPI_PROC_NULL);
    MPI_Comm_free(&grid);
}

/* Rows and columns of a grid are grids of their own (7.5.7); so is a single place. */
static void check_parts(void) {
    int dims[] = {2, 3}, periods[] = {0, 1}, keeps[] = {0, 1}, size[1], ring[1], place[1], rank, part, count, kind;
    MPI_Comm grid, row, point, copy;
    MPI_Cart_create(MPI_COMM_WORLD, 2, dims, periods, 0, &grid);
    if (grid == MPI_COMM_NULL) return;
    MPI_Comm_rank(grid, &rank);
    MPI_Cart_sub(grid, keeps, &row);
    MPI_Comm_rank(row, &part);
    MPI_Comm_size(row, &count);
    CHECK(count == 3 && part == rank % 3);
    MPI_Cart_get(row, 1, size, ring, place);
    CHECK(size[0] == 3 && ring[0] == 1 && place[0] == part);
    int sum = 0;
    MPI_Allreduce(&rank, &sum, 1, MPI_INT, MPI_SUM, row);
    CHECK(sum == 3 + 9 * (rank / 3));
    keeps[1] = 0;
    MPI_Cart_sub(grid, keeps, &point);
    MPI_Comm_size(point, &count);
    MPI_Cartdim_get(point, &kind);
    CHECK(count == 1 && kind == 0);
    MPI_Cart_rank(point, NULL, &part);
    CHECK(part == 0);
    MPI_Comm_dup(row, &copy);
    MPI_Topo_test(copy, &kind);
    CHECK(kind == MPI_CART);
    MPI_Comm_free(&row);
    MPI_Cart_get(copy, 1, size, ring, place);
    CHECK(size[0] == 3 && place[0] == rank % 3);
    MPI_Comm_free(&copy);
    MPI_Comm_split(grid, 0, 0, &copy);
    MPI_Topo_test(copy, &kind);
    CHECK(kind == MPI_UNDEFINED);
    MPI_Comm_free(&copy);
    MPI_Comm_free(&point);
    MPI_Comm_free(&grid);
}

/* Sizes: given ones stay, chosen ones fall and are as near to one another as can be (7.5.2). */
static bool are_sizes(int nodes, int count, const int *given, const int *wanted) {
    int dims[8];
    memcpy(dims, given, (size_t)count * sizeof *dims);
    return MPI_Dims_create(nodes, count, dims) == MPI_SUCCESS &&
           memcmp(dims, wanted, (size_t)count * sizeof *dims) == 0;
}
#define SIZES(nodes, count, ...) are_sizes((nodes), (count), __VA_ARGS__)
#define LIST(...) ((const int[]){__VA_ARGS__})

static void check_sizes(void) {
    CHECK(SIZES(6, 2, LIST(0, 0), LIST(3, 2)));
    CHECK(SIZES(7, 2, LIST(0, 0), LIST(7, 1)));
    CHECK(SIZES(6, 3, LIST(0, 3, 0), LIST(2, 3, 1)));
    CHECK(SIZES(24, 3, LIST(0, 0, 0), LIST(4, 3, 2)));
    CHECK(SIZES(64, 3, LIST(0, 0, 0), LIST(4, 4, 4)));
    CHECK(SIZES(60, 3, LIST(0, 0, 0), LIST(5, 4, 3)));
    CHECK(SIZES(1024, 4, LIST(0, 0, 0, 0), LIST(8, 8, 4, 4)));
    CHECK(SIZES(1000000, 2, LIST(0, 0), LIST(1000, 1000)));
    CHECK(SIZES(1, 3, LIST(0, 0, 0), LIST(1, 1, 1)));
    CHECK(SIZES(30, 3, LIST(2, 3, 5), LIST(2, 3, 5)));
    CHECK(SIZES(5, 0, LIST(9), LIST(9)));
    int dims[] = {0, 4}, negative[] = {0, -1}, full[] = {2, 3};
    return_errors();
    CHECK(class_of(MPI_Dims_create(6, 2, dims)) == MPI_ERR_DIMS && dims[0] == 0 && dims[1] == 4);
    CHECK(class_of(MPI_Dims_create(6, 2, negative)) == MPI_ERR_DIMS);
    CHECK(class_of(MPI_Dims_create(12, 2, full)) == MPI_ERR_DIMS);
    CHECK(class_of(MPI_Dims_create(0, 2, full)) == MPI_ERR_ARG);
}

static void check_refusals(void) {
    int dims[] = {2, 0}, periods[] = {0, 0}, coords[] = {1, 0}, one = 0, other = 0;
    MPI_Comm grid = MPI_COMM_SELF;
    return_errors();
    CHECK(class_of(MPI_Cart_create(MPI_COMM_WORLD, 2, dims, periods, 0, &grid)) == MPI_ERR_DIMS);
    dims[1] = 1000;
    CHECK(class_of(MPI_Cart_create(MPI_COMM_WORLD, 2, dims, periods, 0, &grid)) == MPI_ERR_DIMS);
    CHECK(class_of(MPI_Cart_create(MPI_COMM_WORLD, -1, dims, periods, 0, &grid)) == MPI_ERR_DIMS);
    CHECK(grid == MPI_COMM_SELF);
    CHECK(class_of(MPI_Cartdim_get(MPI_COMM_WORLD, &one)) == MPI_ERR_TOPOLOGY);
    CHECK(class_of(MPI_Cart_shift(MPI_COMM_WORLD, 0, 1, &one, &other)) == MPI_ERR_TOPOLOGY);
    dims[1] = 1;
    MPI_Cart_create(MPI_COMM_WORLD, 2, dims, periods, 0, &grid);
    if (grid == MPI_COMM_NULL) return;
    CHECK(class_of(MPI_Cart_shift(grid, 2, 1, &one, &other)) == MPI_ERR_ARG);
    CHECK(class_of(MPI_Cart_coords(grid, 2, 2, coords)) == MPI_ERR_RANK);
    CHECK(class_of(MPI_Cart_coords(grid, 0, 1, coords)) == MPI_ERR_ARG);
    coords[0] = 2;
    one = -7;
    CHECK(class_of(MPI_Cart_rank(grid, coords, &one)) == MPI_ERR_ARG && one == -7);
    MPI_Comm_free(&grid);
}

/* Where a rank would stand (7.5.8). */
static void check_map(void) {
    int dims[] = {2, 2}, periods[] = {0, 0}, place = -1, kind = 0;
    MPI_Cart_map(MPI_COMM_WORLD, 2, dims, periods, &place);
    CHECK(place == (test_rank < 4 ? test_rank : MPI_UNDEFINED));
    MPI_Topo_test(MPI_COMM_WORLD, &kind);
    CHECK(kind == MPI_UNDEFINED);
}

int main(int argc, char **argv) {
    test_begin(&argc, &argv);
    check_places();
    check_shifts();
    check_parts();
    check_map();
    check_sizes();
    check_refusals();
    return test_end();
}
