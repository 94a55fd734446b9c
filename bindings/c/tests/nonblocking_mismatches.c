/* Collectives that don't wait, entered differently by two members. Whoever gets another block than it wants is told by
 * whichever call ends its request, and the communicator goes on. */
#include "test.h"

enum { ROOM = 16 };
static int own[ROOM], all[ROOM], counts[2], places[2], bytes[2];
static MPI_Aint addresses[2];
static MPI_Datatype types[2];

/* What this rank hands in and wants of each; a copy of the world, one with neighbours, one of two groups. */
static int items;
static MPI_Datatype type;
static MPI_Comm copy, ring, across;

/* ---- what is entered ---- */

enum kind {
    BCAST,
    GATHER,
    GATHERV,
    SCATTER,
    SCATTERV,
    REDUCE,
    ALLGATHER,
    ALLGATHERV,
    ALLTOALL,
    ALLTOALLV,
    ALLTOALLW,
    ALLREDUCE,
    REDUCE_SCATTER,
    REDUCE_SCATTER_BLOCK,
    SCAN,
    EXSCAN,
    KINDS
};

static void begin_rooted(enum kind kind, MPI_Comm comm, int root, MPI_Request *request) {
    if (kind == BCAST) MPI_Ibcast(own, items, type, root, comm, request);
    if (kind == GATHER) MPI_Igather(own, items, type, all, items, type, root, comm, request);
    if (kind == GATHERV) MPI_Igatherv(own, items, type, all, counts, places, type, root, comm, request);
    if (kind == SCATTER) MPI_Iscatter(all, items, type, own, items, type, root, comm, request);
    if (kind == SCATTERV) MPI_Iscatterv(all, counts, places, type, own, items, type, root, comm, request);
    if (kind == REDUCE) MPI_Ireduce(own, all, items, type, MPI_SUM, root, comm, request);
}

static void begin_all(enum kind kind, MPI_Comm comm, MPI_Request *request) {
    if (kind == ALLGATHER) MPI_Iallgather(own, items, type, all, items, type, comm, request);
    if (kind == ALLGATHERV) MPI_Iallgatherv(own, items, type, all, counts, places, type, comm, request);
    if (kind == ALLTOALL) MPI_Ialltoall(own, items, type, all, items, type, comm, request);
    if (kind == ALLTOALLV) MPI_Ialltoallv(own, counts, places, type, all, counts, places, type, comm, request);
    if (kind == ALLTOALLW) MPI_Ialltoallw(own, counts, bytes, types, all, counts, bytes, types, comm, request);
    if (kind == ALLREDUCE) MPI_Iallreduce(own, all, items, type, MPI_SUM, comm, request);
    if (kind == REDUCE_SCATTER) MPI_Ireduce_scatter(own, all, counts, type, MPI_SUM, comm, request);
    if (kind == REDUCE_SCATTER_BLOCK) MPI_Ireduce_scatter_block(own, all, items, type, MPI_SUM, comm, request);
    if (kind == SCAN) MPI_Iscan(own, all, items, type, MPI_SUM, comm, request);
    if (kind == EXSCAN) MPI_Iexscan(own, all, items, type, MPI_SUM, comm, request);
}

static void begin_beside(enum kind kind, MPI_Request *request) {
    if (kind == ALLGATHER) MPI_Ineighbor_allgather(own, items, type, all, items, type, ring, request);
    if (kind == ALLGATHERV) MPI_Ineighbor_allgatherv(own, items, type, all, counts, places, type, ring, request);
    if (kind == ALLTOALL) MPI_Ineighbor_alltoall(own, items, type, all, items, type, ring, request);
    if (kind == ALLTOALLV) MPI_Ineighbor_alltoallv(own, counts, places, type, all, counts, places, type, ring, request);
    if (kind == ALLTOALLW)
        MPI_Ineighbor_alltoallw(own, counts, addresses, types, all, counts, addresses, types, ring, request);
}

/* Whether this rank gets a block of the other one, where rank 0 is the root; and whether it then waits for nothing. */
static bool gets(enum kind kind) {
    if (kind == BCAST || kind == SCATTER || kind == SCATTERV || kind == SCAN || kind == EXSCAN) return test_rank == 1;
    return test_rank == 0 || (kind > REDUCE && kind != ALLREDUCE);
}
/* In an allreduce rank 1 waits for what rank 0 makes of both blocks, which comes to nothing. */
static bool waits_on(enum kind kind) { return kind == ALLREDUCE && test_rank == 1; }

/* ---- how it ends ---- */

enum end { WAIT, TEST, WAITANY, TESTANY, WAITALL, TESTALL, WAITSOME, TESTSOME, GET_STATUS, FREE, ENDS };

/* Those of one request: the class. */
static int end_one(enum end how, MPI_Request *request, MPI_Status *status) {
    int code = MPI_SUCCESS, flag = 0, place = -1;
    if (how == WAIT) code = MPI_Wait(request, status);
    while (how == TEST && !flag) code = MPI_Test(request, &flag, status);
    if (how == WAITANY) code = MPI_Waitany(1, request, &place, status);
    while (how == TESTANY && !flag) code = MPI_Testany(1, request, &place, &flag, status);
    while (how >= GET_STATUS && !flag) code = MPI_Request_get_status(*request, &flag, status);
    if (how >= GET_STATUS) CHECK(*request != MPI_REQUEST_NULL);
    if (how == GET_STATUS) CHECK(class_of(MPI_Wait(request, status)) == class_of(code));
    if (how == FREE) CHECK(class_of(MPI_Request_free(request)) == class_of(code));
    CHECK((how != WAITANY && how != TESTANY) || place == 0);
    return class_of(code);
}

/* Those of a list: the class, by the status where there is one. */
static int end_list(enum end how, MPI_Request *request, MPI_Status *status) {
    int code = MPI_SUCCESS, flag = 0, count = 0, place = -1;
    if (how == WAITALL) code = MPI_Waitall(1, request, status);
    while (how == TESTALL && !flag) code = MPI_Testall(1, request, &flag, status);
    if (how == WAITSOME) code = MPI_Waitsome(1, request, &count, &place, status);
    while (how == TESTSOME && count == 0) code = MPI_Testsome(1, request, &count, &place, status);
    CHECK((how != WAITSOME && how != TESTSOME) || (count == 1 && place == 0));
    if (code == MPI_SUCCESS) return MPI_SUCCESS;
    CHECK(class_of(code) == MPI_ERR_IN_STATUS);
    return status == MPI_STATUSES_IGNORE ? -1 : class_of(status->MPI_ERROR);
}

static void check_end(enum end how, MPI_Request request, int wanted, bool has_status) {
    MPI_Status status;
    status.MPI_ERROR = 77;
    const bool is_list = how >= WAITALL && how <= TESTSOME;
    MPI_Status *told = has_status ? &status : is_list ? MPI_STATUSES_IGNORE : MPI_STATUS_IGNORE;
    int class = is_list ? end_list(how, &request, told) : end_one(how, &request, told);
    CHECK(class == wanted || (class == -1 && wanted != MPI_SUCCESS));
    /* A call for one request leaves the error of a status as it was (3.2.5). */
    CHECK(is_list || status.MPI_ERROR == 77);
    CHECK(request == MPI_REQUEST_NULL);
}

/* ---- rows ---- */

/* Rank 0 has two ints, rank 1 so many of this type. */
static void hand_in(int of_rank_1, MPI_Datatype type_of_rank_1) {
    items = test_rank == 0 ? 2 : of_rank_1;
    type = test_rank == 0 ? MPI_INT : type_of_rank_1;
    for (int member = 0; member < 2; member++) {
        counts[member] = items;
        places[member] = member * items;
        bytes[member] = places[member] * (int)sizeof(int);
        addresses[member] = bytes[member];
        types[member] = type;
    }
}

/* The class of what this rank is told: of too long a block, or of another one. */
static int told(int of_rank_1, bool is_type) {
    if (is_type) return MPI_ERR_TYPE;
    const bool is_longer = test_rank == 0 ? of_rank_1 > 2 : of_rank_1 < 2;
    return is_longer ? MPI_ERR_TRUNCATE : MPI_ERR_COUNT;
}

static void check_within(int class, enum end how, bool has_status) {
    for (int kind = 0; kind < KINDS; kind++) {
        MPI_Request request = MPI_REQUEST_NULL;
        if (kind <= REDUCE) begin_rooted((enum kind)kind, copy, 0, &request);
        else begin_all((enum kind)kind, copy, &request);
        if (!waits_on((enum kind)kind))
            check_end(how, request, gets((enum kind)kind) ? class : MPI_SUCCESS, has_status);
    }
}

static void check_neighbours(int class, enum end how, bool has_status) {
    for (int kind = ALLGATHER; kind <= ALLTOALLW; kind++) {
        MPI_Request request = MPI_REQUEST_NULL;
        begin_beside((enum kind)kind, &request);
        check_end(how, request, class, has_status);
    }
}

/* Over the two groups what each gets comes of the other one; of a rooted one at the root's group, or at the other. */
static void check_across(int class, enum end how, bool has_status) {
    for (int kind = 0; kind <= ALLREDUCE; kind++) {
        MPI_Request request = MPI_REQUEST_NULL;
        if (kind <= REDUCE) begin_rooted((enum kind)kind, across, test_rank == 0 ? MPI_ROOT : 0, &request);
        else begin_all((enum kind)kind, across, &request);
        check_end(how, request, gets((enum kind)kind) || kind == ALLREDUCE ? class : MPI_SUCCESS, has_status);
    }
}

/* Another kind is told where one waits for the other. */
static void check_another_kind(enum end how, bool has_status) {
    MPI_Request request;
    hand_in(2, MPI_INT);
    if (test_rank == 0) MPI_Ibcast(own, 2, MPI_INT, 1, copy, &request);
    else MPI_Ibarrier(copy, &request);
    if (test_rank == 0) check_end(how, request, MPI_ERR_NOT_SAME, has_status);
}

/* What is entered behind all of this is entered by all. */
static void check_next(MPI_Comm comm) {
    int sum = -1;
    MPI_Request request;
    MPI_Iallreduce(&test_rank, &sum, 1, MPI_INT, MPI_SUM, comm, &request);
    CHECK(MPI_Wait(&request, MPI_STATUS_IGNORE) == MPI_SUCCESS && sum == 1);
}

int main(int argc, char **argv) {
    static const struct {
        int items;
        bool is_type;
    } rows[] = {{3, false}, {1, false}, {0, false}, {2, true}};
    int size = 2, is_ring = 1;
    test_begin(&argc, &argv);
    return_errors();
    MPI_Comm_dup(MPI_COMM_WORLD, &copy);
    MPI_Cart_create(MPI_COMM_WORLD, 1, &size, &is_ring, 0, &ring);
    MPI_Intercomm_create(MPI_COMM_SELF, 0, MPI_COMM_WORLD, 1 - test_rank, 0, &across);
    MPI_Comm_set_errhandler(across, MPI_ERRORS_RETURN);
    for (int turn = 0; turn < 2 * ENDS; turn++) {
        const enum end how = (enum end)(turn / 2);
        for (size_t row = 0; row < sizeof rows / sizeof *rows; row++) {
            const int class = told(rows[row].items, rows[row].is_type);
            hand_in(rows[row].items, rows[row].is_type ? MPI_FLOAT : MPI_INT);
            check_within(class, how, turn % 2 == 0);
            check_neighbours(class, how, turn % 2 == 0);
            check_across(class, how, turn % 2 == 0);
        }
        check_another_kind(how, turn % 2 == 0);
        check_next(copy);
        check_next(ring);
    }
    return test_end();
}
