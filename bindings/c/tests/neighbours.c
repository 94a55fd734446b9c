/* Exchanges with neighbours (MPI 3.1, 7.6, 7.7) on grids, rings of one and two places, graphs, distributed graphs. */
#include "test.h"

/* A line of two by a ring of three: beyond the ends nothing comes. */
static void check_grid(void) {
    int dims[] = {2, 3}, periods[] = {0, 1}, rank, got[4] = {-1, -1, -1, -1}, sent[4];
    MPI_Comm grid;
    MPI_Cart_create(MPI_COMM_WORLD, 2, dims, periods, 0, &grid);
    if (grid == MPI_COMM_NULL) return;
    MPI_Comm_rank(grid, &rank);
    const int row = rank / 3, column = rank % 3, left = row * 3 + (column + 2) % 3, right = row * 3 + (column + 1) % 3;
    const int up = row == 1 ? rank - 3 : -1, down = row == 0 ? rank + 3 : -1;
    MPI_Neighbor_allgather(&rank, 1, MPI_INT, got, 1, MPI_INT, grid);
    CHECK(got[0] == up && got[1] == down && got[2] == left && got[3] == right);
    for (int at = 0; at < 4; at++) {
        sent[at] = 10 * rank + at;
        got[at] = -1;
    }
    MPI_Neighbor_alltoall(sent, 1, MPI_INT, got, 1, MPI_INT, grid);
    /* What a rank sends to the one before it comes there as from the one behind. */
    CHECK(got[0] == (up < 0 ? -1 : 10 * up + 1) && got[1] == (down < 0 ? -1 : 10 * down));
    CHECK(got[2] == 10 * left + 3 && got[3] == 10 * right + 2);
    MPI_Comm_free(&grid);
}

/* On a ring of one place a rank is its own neighbour, twice; on one of two the other rank is: what is sent to the one
 * before comes as of the one behind (MPI 4.0, 8.6). */
static void check_alone(void) {
    int size = 1, ring = 1, sent[2] = {5, 6}, got[2] = {0, 0}, rank;
    MPI_Comm alone, two;
    MPI_Cart_create(MPI_COMM_SELF, 1, &size, &ring, 0, &alone);
    MPI_Neighbor_alltoall(sent, 1, MPI_INT, got, 1, MPI_INT, alone);
    CHECK(got[0] == 6 && got[1] == 5);
    MPI_Comm_free(&alone);
    size = 2;
    MPI_Cart_create(MPI_COMM_WORLD, 1, &size, &ring, 0, &two);
    if (two == MPI_COMM_NULL) return;
    MPI_Comm_rank(two, &rank);
    sent[0] = 10 * rank;
    sent[1] = 10 * rank + 1;
    MPI_Neighbor_alltoall(sent, 1, MPI_INT, got, 1, MPI_INT, two);
    CHECK(got[0] == 10 * (1 - rank) + 1 && got[1] == 10 * (1 - rank));
    MPI_Comm_free(&two);
}

/* A star: rank 0 with all others, by blocks of different lengths, begun and then waited for. */
static void check_star(void) {
    int ends[8], to[16], count = 0, lengths[8], places[8], got[64], sent[64], out[8], from[8];
    MPI_Request request;
    MPI_Comm star;
    for (int rank = 0; rank < test_size; rank++) {
        for (int other = 1; rank == 0 && other < test_size; other++) to[count++] = other;
        if (rank > 0) to[count++] = 0;
        ends[rank] = count;
    }
    MPI_Graph_create(MPI_COMM_WORLD, test_size, ends, to, 0, &star);
    const int mine = test_rank == 0 ? test_size - 1 : 1;
    for (int at = 0; at < 64; at++) sent[at] = 100 * test_rank + at, got[at] = -1;
    for (int at = 0; at < mine; at++) {
        const int other = test_rank == 0 ? at + 1 : 0;
        lengths[at] = other == 0 ? 2 : other;
        places[at] = 8 * at;
        out[at] = test_rank == 0 ? 2 : test_rank;
        from[at] = 4 * at;
    }
    MPI_Ineighbor_alltoallv(sent, out, from, MPI_INT, got, lengths, places, MPI_INT, star, &request);
    MPI_Wait(&request, MPI_STATUS_IGNORE);
    for (int at = 0; at < mine; at++) {
        const int other = test_rank == 0 ? at + 1 : 0, first = other == 0 ? 4 * (test_rank - 1) : 0;
        for (int k = 0; k < lengths[at]; k++) CHECK(got[places[at] + k] == 100 * other + first + k);
        CHECK(got[places[at] + lengths[at]] == -1);
    }
    MPI_Neighbor_allgatherv(&test_rank, 1, MPI_INT, got, (int[]){1, 1, 1, 1, 1, 1, 1, 1}, places, MPI_INT, star);
    for (int at = 0; at < mine; at++) CHECK(got[places[at]] == (test_rank == 0 ? at + 1 : 0));
    MPI_Comm_free(&star);
}

/* Each sends two blocks of different types to the next rank, one of them twice as far off in memory. */
static void check_types(void) {
    const int next = (test_rank + 1) % test_size, last = (test_rank + test_size - 1) % test_size;
    const int to[] = {next, next}, from[] = {last, last}, counts[] = {2, 1};
    const MPI_Datatype types[] = {MPI_INT, MPI_DOUBLE};
    struct mixed {
        double number;
        int pair[2];
    } sent = {test_rank + 0.5, {test_rank, -test_rank}}, got = {0, {0, 0}};
    const MPI_Aint places[] = {offsetof(struct mixed, pair), offsetof(struct mixed, number)};
    MPI_Comm ring;
    MPI_Dist_graph_create_adjacent(MPI_COMM_WORLD, 2, from, MPI_UNWEIGHTED, 2, to, MPI_UNWEIGHTED, MPI_INFO_NULL, 0,
                                   &ring);
    MPI_Neighbor_alltoallw(&sent, counts, places, types, &got, counts, places, types, ring);
    CHECK(got.number == last + 0.5 && got.pair[0] == last && got.pair[1] == -last);
    MPI_Request requests[2];
    int both[2] = {-1, -1};
    MPI_Ineighbor_allgather(&test_rank, 1, MPI_INT, both, 1, MPI_INT, ring, &requests[0]);
    MPI_Ineighbor_alltoallw(&sent, counts, places, types, &got, counts, places, types, ring, &requests[1]);
    MPI_Waitall(2, requests, MPI_STATUSES_IGNORE);
    CHECK(both[0] == last && both[1] == last);
    MPI_Comm_free(&ring);
    return_errors();
    CHECK(class_of(MPI_Neighbor_allgather(&test_rank, 1, MPI_INT, both, 1, MPI_INT, MPI_COMM_WORLD)) ==
          MPI_ERR_TOPOLOGY);
}

/* On a ring each of them, made once and begun in several rounds, another one first at every other rank (MPI 4.0, 8.8).
 */
static void check_persistent(void) {
    int ring = 1, given[2], got[5][2], counts[] = {1, 1}, places[] = {0, 1};
    const MPI_Aint bytes[] = {0, sizeof(int)};
    const MPI_Datatype types[] = {MPI_INT, MPI_INT};
    MPI_Comm comm;
    MPI_Request list[5];
    MPI_Cart_create(MPI_COMM_WORLD, 1, &test_size, &ring, 0, &comm);
    MPI_Neighbor_allgather_init(given, 1, MPI_INT, got[0], 1, MPI_INT, comm, MPI_INFO_NULL, &list[0]);
    MPI_Neighbor_allgatherv_init(given, 1, MPI_INT, got[1], counts, places, MPI_INT, comm, MPI_INFO_NULL, &list[1]);
    MPI_Neighbor_alltoall_init(given, 1, MPI_INT, got[2], 1, MPI_INT, comm, MPI_INFO_NULL, &list[2]);
    MPI_Neighbor_alltoallv_init(given, counts, places, MPI_INT, got[3], counts, places, MPI_INT, comm, MPI_INFO_NULL,
                                &list[3]);
    MPI_Neighbor_alltoallw_init(given, counts, bytes, types, got[4], counts, bytes, types, comm, MPI_INFO_NULL,
                                &list[4]);
    const int last = (test_rank + test_size - 1) % test_size, next = (test_rank + 1) % test_size;
    for (int round = 0; round < 4; round++) {
        memset(got, -1, sizeof got);
        given[0] = 100 * round + 10 * test_rank;
        given[1] = given[0] + 1;
        if (round % 2 == 1) MPI_Startall(5, list);
        for (int at = 0; at < 5 && round % 2 == 0; at++) MPI_Start(&list[test_rank % 2 == 0 ? at : 4 - at]);
        MPI_Waitall(5, list, MPI_STATUSES_IGNORE);
        for (int at = 0; at < 5; at++) {
            CHECK(got[at][0] == 100 * round + 10 * last + (at < 2 ? 0 : 1) && got[at][1] == 100 * round + 10 * next);
            CHECK(list[at] != MPI_REQUEST_NULL);
        }
    }
    for (int at = 0; at < 5; at++) MPI_Request_free(&list[at]);
    MPI_Comm_free(&comm);
    CHECK(class_of(MPI_Neighbor_allgather_init(given, 1, MPI_INT, got, 1, MPI_INT, MPI_COMM_WORLD, MPI_INFO_NULL,
                                               &list[0])) == MPI_ERR_TOPOLOGY);
}

int main(int argc, char **argv) {
    test_begin(&argc, &argv);
    check_grid();
    check_alone();
    check_star();
    check_types();
    check_persistent();
    return test_end();
}
