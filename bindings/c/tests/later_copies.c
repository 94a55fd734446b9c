/* MPI_Comm_idup (MPI 3.1, 6.4.2): the call doesn't wait for the other members. */
#include "test.h"

/* Rank 0 goes on before anyone else has entered; the others enter once it has. */
static void check_at_once(void) {
    MPI_Comm copy;
    MPI_Request request;
    int told = -1, sum = 0, one = 1;
    if (test_rank > 0) MPI_Recv(&told, 1, MPI_INT, test_rank - 1, 0, MPI_COMM_WORLD, MPI_STATUS_IGNORE);
    MPI_Comm_idup(MPI_COMM_WORLD, &copy, &request);
    if (test_rank + 1 < test_size) MPI_Send(&test_rank, 1, MPI_INT, test_rank + 1, 0, MPI_COMM_WORLD);
    MPI_Wait(&request, MPI_STATUS_IGNORE);
    CHECK(request == MPI_REQUEST_NULL);
    MPI_Allreduce(&one, &sum, 1, MPI_INT, MPI_SUM, copy);
    CHECK(sum == test_size);
    MPI_Comm_free(&copy);
}

/* The same from the last one on: a member that isn't the first goes on before the first has entered. */
static void check_before_the_first(void) {
    MPI_Comm copy;
    MPI_Request request;
    int told = -1, result = -1;
    if (test_rank + 1 < test_size) MPI_Recv(&told, 1, MPI_INT, test_rank + 1, 0, MPI_COMM_WORLD, MPI_STATUS_IGNORE);
    MPI_Comm_idup(MPI_COMM_WORLD, &copy, &request);
    if (test_rank > 0) MPI_Send(&test_rank, 1, MPI_INT, test_rank - 1, 0, MPI_COMM_WORLD);
    MPI_Wait(&request, MPI_STATUS_IGNORE);
    MPI_Comm_compare(MPI_COMM_WORLD, copy, &result);
    CHECK(result == MPI_CONGRUENT);
    MPI_Comm_free(&copy);
}

/* Members copy two communicators in different orders. */
static void check_orders(void) {
    MPI_Comm parents[2], copies[2];
    MPI_Request requests[2];
    int sum = 0, one = 1;
    for (int at = 0; at < 2; at++) MPI_Comm_dup(MPI_COMM_WORLD, &parents[at]);
    for (int turn = 0; turn < 10; turn++) {
        for (int at = 0; at < 2; at++) {
            const int which = (at + test_rank) % 2;
            MPI_Comm_idup(parents[which], &copies[which], &requests[which]);
            if (turn % 2 == 0) continue;
            /* Each waits for the one that it began last, with the other one on its way. */
            if (at == 1) MPI_Wait(&requests[which], MPI_STATUS_IGNORE);
        }
        MPI_Waitall(2, requests, MPI_STATUSES_IGNORE);
        for (int at = 0; at < 2; at++) {
            MPI_Allreduce(&one, &sum, 1, MPI_INT, MPI_SUM, copies[at]);
            CHECK(sum == test_size);
            MPI_Comm_free(&copies[at]);
        }
    }
    for (int at = 0; at < 2; at++) MPI_Comm_free(&parents[at]);
}

/* Other collectives go on meanwhile, in their order, and the program tests for the end. */
static void check_beside_others(void) {
    MPI_Comm copy;
    MPI_Request requests[2];
    int sum = 0, one = 1, flag = 0, value = test_rank == 0 ? 4 : -1;
    MPI_Comm_idup(MPI_COMM_WORLD, &copy, &requests[0]);
    MPI_Ibcast(&value, 1, MPI_INT, 0, MPI_COMM_WORLD, &requests[1]);
    MPI_Allreduce(&one, &sum, 1, MPI_INT, MPI_SUM, MPI_COMM_WORLD);
    while (!flag) MPI_Testall(2, requests, &flag, MPI_STATUSES_IGNORE);
    CHECK(sum == test_size && value == 4);
    MPI_Comm_free(&copy);
}

static int copies_made, deleted;
static int copy_value(MPI_Comm comm, int key, void *state, void *in, void *out, int *flag) {
    (void)comm, (void)key, (void)state;
    copies_made++;
    *(void **)out = in;
    *flag = 1;
    return MPI_SUCCESS;
}
static int delete_value(MPI_Comm comm, int key, void *value, void *state) {
    (void)comm, (void)key, (void)value, (void)state;
    deleted++;
    return MPI_SUCCESS;
}
static int refuse_copy(MPI_Comm comm, int key, void *state, void *in, void *out, int *flag) {
    (void)comm, (void)key, (void)state, (void)in, (void)out, (void)flag;
    return MPI_ERR_OTHER;
}

/* Values, the topology and the handler are those of the parent at the call. */
static void check_heritage(void) {
    MPI_Comm grid, copy;
    MPI_Request request;
    MPI_Errhandler handler;
    int key, flag = 0, status = -1, first = 1, second = 2, *value = NULL;
    const int sizes[1] = {test_size}, rings[1] = {1};
    MPI_Comm_create_keyval(copy_value, delete_value, &key, NULL);
    MPI_Cart_create(MPI_COMM_WORLD, 1, sizes, rings, 0, &grid);
    MPI_Comm_set_errhandler(grid, MPI_ERRORS_RETURN);
    MPI_Comm_set_attr(grid, key, &first);
    MPI_Comm_idup_with_info(grid, MPI_INFO_NULL, &copy, &request);
    CHECK(copies_made == 1);
    MPI_Comm_set_attr(grid, key, &second);
    MPI_Wait(&request, MPI_STATUS_IGNORE);
    MPI_Comm_get_attr(copy, key, &value, &flag);
    CHECK(flag && value == &first);
    MPI_Topo_test(copy, &status);
    CHECK(status == MPI_CART);
    MPI_Comm_get_errhandler(copy, &handler);
    CHECK(handler == MPI_ERRORS_RETURN);
    MPI_Comm_free(&copy);
    MPI_Comm_free(&grid);
    CHECK(deleted == 3);
    MPI_Comm_free_keyval(&key);
}

static void check_errors(void) {
    MPI_Comm copy = MPI_COMM_WORLD, parent;
    MPI_Request request = MPI_REQUEST_NULL;
    int key, value = 0, size = 0;
    return_errors();
    CHECK(class_of(MPI_Comm_idup(MPI_COMM_NULL, &copy, &request)) == MPI_ERR_COMM);
    CHECK(class_of(MPI_Comm_idup(MPI_COMM_WORLD, NULL, &request)) == MPI_ERR_ARG);
    CHECK(class_of(MPI_Comm_idup(MPI_COMM_WORLD, &copy, NULL)) == MPI_ERR_ARG);
    MPI_Comm_dup(MPI_COMM_WORLD, &parent);
    MPI_Comm_create_keyval(refuse_copy, MPI_COMM_NULL_DELETE_FN, &key, NULL);
    MPI_Comm_set_attr(parent, key, &value);
    CHECK(class_of(MPI_Comm_idup(parent, &copy, &request)) == MPI_ERR_OTHER);
    CHECK(copy == MPI_COMM_NULL && request == MPI_REQUEST_NULL);
    MPI_Comm_free_keyval(&key);
    MPI_Comm_free(&parent);
    /* It is none before its request is at its end (6.4.2): rank 0 enters last, so that is told to the others. */
    if (test_rank == 0) MPI_Recv(&value, 1, MPI_INT, 1, 0, MPI_COMM_WORLD, MPI_STATUS_IGNORE);
    MPI_Comm_idup(MPI_COMM_WORLD, &copy, &request);
    if (test_rank == 1) {
        CHECK(class_of(MPI_Comm_size(copy, &size)) == MPI_ERR_COMM);
        MPI_Send(&value, 1, MPI_INT, 0, 0, MPI_COMM_WORLD);
    }
    MPI_Wait(&request, MPI_STATUS_IGNORE);
    CHECK(MPI_Comm_size(copy, &size) == MPI_SUCCESS && size == test_size);
    MPI_Comm_free(&copy);
}

/* Many are on their way at once, and more than there may be communicators of an engine in a rank's life. */
static void check_many(void) {
    enum { AT_ONCE = 30, TURNS = 150 };
    static MPI_Comm copies[AT_ONCE];
    static MPI_Request requests[AT_ONCE];
    for (int turn = 0; turn < TURNS; turn++) {
        for (int at = 0; at < AT_ONCE; at++) MPI_Comm_idup(MPI_COMM_SELF, &copies[at], &requests[at]);
        MPI_Waitall(AT_ONCE, requests, MPI_STATUSES_IGNORE);
        for (int at = 0; at < AT_ONCE; at++) MPI_Comm_free(&copies[at]);
    }
    for (int at = 0; at < AT_ONCE; at++) MPI_Comm_idup(MPI_COMM_WORLD, &copies[at], &requests[at]);
    MPI_Waitall(AT_ONCE, requests, MPI_STATUSES_IGNORE);
    for (int at = 0; at < AT_ONCE; at++) {
        MPI_Barrier(copies[AT_ONCE - 1 - at]);
        MPI_Comm_free(&copies[AT_ONCE - 1 - at]);
    }
}

int main(int argc, char **argv) {
    test_begin(&argc, &argv);
    check_at_once();
    check_before_the_first();
    check_orders();
    check_beside_others();
    check_heritage();
    check_many();
    check_errors();
    return test_end();
}
