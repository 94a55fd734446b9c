/* Collectives that go by plans, entered differently by the members: of another kind, with blocks of other lengths or
 * types. A member that waits for a block is told. */
#include "test.h"

/* All but rank 0 enter another collective: who waits for one that entered another one is told. */
static void another_kind(void) {
    MPI_Comm copy;
    int own[8] = {0}, all[64];
    MPI_Comm_dup(MPI_COMM_WORLD, &copy);
    int got = test_rank == 0 ? MPI_Allgather(own, 1, MPI_INT, all, 1, MPI_INT, copy)
                             : MPI_Alltoall(own, 1, MPI_INT, all, 1, MPI_INT, copy);
    CHECK(class_of(got) == MPI_ERR_NOT_SAME);
    /* The next one is entered by all. */
    CHECK(MPI_Allgather(&test_rank, 1, MPI_INT, all, 1, MPI_INT, copy) == MPI_SUCCESS);
    for (int member = 0; member < test_size; member++) CHECK(all[member] == member);
    MPI_Comm_free(&copy);
}

/* Rank 0 sends more, or fewer, or others than the others want of it. */
static void another_block(int items, MPI_Datatype type, int class) {
    MPI_Comm copy;
    double own[4] = {0};
    int counts[8], places[8], all[64], wanted = test_rank == 0 ? 2 : 0;
    MPI_Comm_dup(MPI_COMM_WORLD, &copy);
    for (int member = 0; member < test_size; member++) counts[member] = wanted, places[member] = 2 * member;
    if (test_rank == 0) counts[0] = 0;
    int got = MPI_Gatherv(own,
                          test_rank == 0   ? 0
                          : test_rank == 1 ? items
                                           : 2,
                          test_rank == 1 ? type : MPI_INT, all, counts, places, MPI_INT, 0, copy);
    CHECK(class_of(got) == (test_rank == 0 ? class : MPI_SUCCESS));
    MPI_Comm_free(&copy);
}

/* What is wrong at one rank alone is told before anything goes. */
static void wrong_arguments(void) {
    int own[4] = {0}, all[64], counts[8] = {1, 1, 1, 1, 1, 1, 1, 1};
    MPI_Request request = MPI_REQUEST_NULL;
    CHECK(class_of(MPI_Allgather(own, -1, MPI_INT, all, 1, MPI_INT, MPI_COMM_SELF)) == MPI_ERR_COUNT);
    CHECK(class_of(MPI_Allgather(own, 1, MPI_DATATYPE_NULL, all, 1, MPI_INT, MPI_COMM_SELF)) == MPI_ERR_TYPE);
    CHECK(class_of(MPI_Allgather(own, 1, MPI_INT, NULL, 1, MPI_INT, MPI_COMM_SELF)) == MPI_ERR_BUFFER);
    CHECK(class_of(MPI_Allgather(all, 1, MPI_INT, all, 1, MPI_INT, MPI_COMM_SELF)) == MPI_ERR_BUFFER);
    CHECK(class_of(MPI_Allgather(own, 2, MPI_INT, all, 1, MPI_INT, MPI_COMM_SELF)) == MPI_ERR_COUNT);
    CHECK(class_of(MPI_Alltoall(own, 1, MPI_INT, MPI_IN_PLACE, 1, MPI_INT, MPI_COMM_SELF)) == MPI_ERR_BUFFER);
    CHECK(class_of(MPI_Scan(own, all, 1, MPI_FLOAT, MPI_BXOR, MPI_COMM_SELF)) == MPI_ERR_OP);
    CHECK(class_of(MPI_Exscan(own, all, 1, MPI_INT, MPI_OP_NULL, MPI_COMM_SELF)) == MPI_ERR_OP);
    CHECK(class_of(MPI_Gatherv(own, 1, MPI_INT, all, counts, counts, MPI_INT, 1, MPI_COMM_SELF)) == MPI_ERR_ROOT);
    CHECK(class_of(MPI_Ibarrier(MPI_COMM_SELF, NULL)) == MPI_ERR_ARG);
    CHECK(class_of(MPI_Ibarrier(MPI_COMM_NULL, &request)) == MPI_ERR_COMM && request == MPI_REQUEST_NULL);
    CHECK(MPI_Ibarrier(MPI_COMM_SELF, &request) == MPI_SUCCESS);
    CHECK(class_of(MPI_Cancel(&request)) == MPI_ERR_REQUEST);
    CHECK(MPI_Wait(&request, MPI_STATUS_IGNORE) == MPI_SUCCESS && request == MPI_REQUEST_NULL);
}

int main(int argc, char **argv) {
    test_begin(&argc, &argv);
    MPI_Comm_set_errhandler(MPI_COMM_SELF, MPI_ERRORS_RETURN);
    return_errors();
    wrong_arguments();
    another_kind();
    another_block(3, MPI_INT, MPI_ERR_TRUNCATE);
    another_block(1, MPI_INT, MPI_ERR_COUNT);
    another_block(0, MPI_INT, MPI_ERR_COUNT);
    another_block(2, MPI_FLOAT, MPI_ERR_TYPE);
    return test_end();
}
