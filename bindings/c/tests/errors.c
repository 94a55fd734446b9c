/* Errors that calls answer with MPI_ERRORS_RETURN (MPI 3.1, 8.3 and 8.4). */
#include "test.h"

static int number;
static MPI_Request request;
static MPI_Status status;

/* That a call answers this class. */
#define ANSWERS(call, class) CHECK(class_of(call) == (class))
/* The same where the standard doesn't say which class it is, or doesn't ask that it be found. */
#ifdef KOMBAZILY
#define ANSWERS_HERE(call, class) ANSWERS(call, class)
#else
#define ANSWERS_HERE(call, class) (void)0
#endif

static void check_sends(void) {
    MPI_Comm world = MPI_COMM_WORLD;
    ANSWERS(MPI_Send(&number, 1, MPI_INT, test_size, 0, world), MPI_ERR_RANK);
    ANSWERS(MPI_Send(&number, 1, MPI_INT, -7, 0, world), MPI_ERR_RANK);
    ANSWERS(MPI_Send(&number, 1, MPI_INT, MPI_ANY_SOURCE, 0, world), MPI_ERR_RANK);
    ANSWERS(MPI_Send(&number, 1, MPI_INT, 0, -5, world), MPI_ERR_TAG);
    ANSWERS(MPI_Ssend(&number, 1, MPI_INT, 0, MPI_ANY_TAG, world), MPI_ERR_TAG);
    ANSWERS(MPI_Rsend(&number, -1, MPI_INT, 0, 0, world), MPI_ERR_COUNT);
    ANSWERS(MPI_Isend(&number, 1, MPI_DATATYPE_NULL, 0, 0, world, &request), MPI_ERR_TYPE);
    ANSWERS(MPI_Issend(&number, 1, MPI_INT, 0, 0, MPI_COMM_NULL, &request), MPI_ERR_COMM);
    ANSWERS(MPI_Send(NULL, 1, MPI_INT, 0, 0, world), MPI_ERR_BUFFER);
    ANSWERS_HERE(MPI_Send(MPI_IN_PLACE, 1, MPI_INT, 0, 0, world), MPI_ERR_BUFFER);
}

static void check_receives(void) {
    MPI_Comm world = MPI_COMM_WORLD;
    int flag = 0;
    ANSWERS(MPI_Recv(&number, 1, MPI_INT, test_size, 0, world, &status), MPI_ERR_RANK);
    ANSWERS(MPI_Recv(&number, 1, MPI_INT, -9, 0, world, &status), MPI_ERR_RANK);
    ANSWERS(MPI_Recv(&number, 1, MPI_INT, 0, -9, world, &status), MPI_ERR_TAG);
    ANSWERS(MPI_Irecv(&number, -3, MPI_INT, 0, 0, world, &request), MPI_ERR_COUNT);
    ANSWERS(MPI_Irecv(&number, 1, MPI_DATATYPE_NULL, 0, 0, world, &request), MPI_ERR_TYPE);
    ANSWERS(MPI_Recv(&number, 1, MPI_INT, 0, 0, MPI_COMM_NULL, &status), MPI_ERR_COMM);
    ANSWERS_HERE(MPI_Irecv(MPI_IN_PLACE, 1, MPI_INT, 0, 0, world, &request), MPI_ERR_BUFFER);
    ANSWERS(MPI_Probe(test_size, 0, world, &status), MPI_ERR_RANK);
    ANSWERS(MPI_Iprobe(0, -9, world, &flag, &status), MPI_ERR_TAG);
}

/* A type that isn't committed can't be sent; a predefined one can't be freed. */
static void check_types(void) {
    MPI_Datatype pair, basic = MPI_INT;
    int size;
    MPI_Type_contiguous(2, MPI_INT, &pair);
    ANSWERS_HERE(MPI_Send(&number, 0, pair, MPI_PROC_NULL, 0, MPI_COMM_WORLD), MPI_ERR_TYPE);
    MPI_Type_free(&pair);
    ANSWERS(MPI_Type_size(MPI_DATATYPE_NULL, &size), MPI_ERR_TYPE);
    ANSWERS(MPI_Type_contiguous(-1, MPI_INT, &pair), MPI_ERR_COUNT);
    ANSWERS_HERE(MPI_Type_vector(1, -1, 1, MPI_INT, &pair), MPI_ERR_ARG);
    ANSWERS(MPI_Type_free(&basic), MPI_ERR_TYPE);
    CHECK(basic == MPI_INT);
}

/* MPI_IN_PLACE stands where 5 allows it, and is no address elsewhere. */
static void check_in_place(int *all) {
    MPI_Comm self = MPI_COMM_SELF;
    int position = 0;
    ANSWERS_HERE(MPI_Bcast(MPI_IN_PLACE, 1, MPI_INT, 0, self), MPI_ERR_BUFFER);
    ANSWERS_HERE(MPI_Gather(all, 1, MPI_INT, MPI_IN_PLACE, 1, MPI_INT, 0, self), MPI_ERR_BUFFER);
    ANSWERS_HERE(MPI_Scatter(MPI_IN_PLACE, 1, MPI_INT, all, 1, MPI_INT, 0, self), MPI_ERR_BUFFER);
    ANSWERS_HERE(MPI_Reduce(all, MPI_IN_PLACE, 1, MPI_INT, MPI_SUM, 0, self), MPI_ERR_BUFFER);
    ANSWERS_HERE(MPI_Allreduce(MPI_IN_PLACE, MPI_IN_PLACE, 1, MPI_INT, MPI_SUM, self), MPI_ERR_BUFFER);
    ANSWERS_HERE(MPI_Pack(MPI_IN_PLACE, 1, MPI_INT, all, (int)sizeof(int), &position, self), MPI_ERR_BUFFER);
    ANSWERS_HERE(MPI_Reduce_local(MPI_IN_PLACE, all, 1, MPI_INT, MPI_SUM), MPI_ERR_BUFFER);
}

static void check_collectives(void) {
    int all[64];
    ANSWERS(MPI_Bcast(&number, 1, MPI_INT, test_size, MPI_COMM_WORLD), MPI_ERR_ROOT);
    ANSWERS(MPI_Bcast(&number, 1, MPI_INT, -1, MPI_COMM_WORLD), MPI_ERR_ROOT);
    ANSWERS(MPI_Bcast(&number, -1, MPI_INT, 0, MPI_COMM_WORLD), MPI_ERR_COUNT);
    ANSWERS(MPI_Bcast(&number, 1, MPI_DATATYPE_NULL, 0, MPI_COMM_WORLD), MPI_ERR_TYPE);
    ANSWERS(MPI_Barrier(MPI_COMM_NULL), MPI_ERR_COMM);
    ANSWERS(MPI_Gather(&number, 1, MPI_INT, all, 1, MPI_INT, test_size, MPI_COMM_WORLD), MPI_ERR_ROOT);
    ANSWERS(MPI_Scatter(all, 1, MPI_INT, &number, 1, MPI_INT, -5, MPI_COMM_WORLD), MPI_ERR_ROOT);
    ANSWERS(MPI_Reduce(all, &number, 1, MPI_INT, MPI_OP_NULL, 0, MPI_COMM_WORLD), MPI_ERR_OP);
    ANSWERS(MPI_Allreduce(all, &number, 1, MPI_DOUBLE, MPI_BAND, MPI_COMM_WORLD), MPI_ERR_OP);
    ANSWERS_HERE(MPI_Allreduce(all, all, 1, MPI_INT, MPI_SUM, MPI_COMM_WORLD), MPI_ERR_BUFFER);
    MPI_Comm_set_errhandler(MPI_COMM_SELF, MPI_ERRORS_RETURN);
    ANSWERS_HERE(MPI_Gather(all, 1, MPI_INT, all, 1, MPI_INT, 0, MPI_COMM_SELF), MPI_ERR_BUFFER);
    ANSWERS_HERE(MPI_Scatter(all, 1, MPI_INT, all, 1, MPI_INT, 0, MPI_COMM_SELF), MPI_ERR_BUFFER);
    CHECK(MPI_Gather(all, 0, MPI_INT, all, 0, MPI_INT, 0, MPI_COMM_SELF) == MPI_SUCCESS);
    check_in_place(all);
    MPI_Comm_set_errhandler(MPI_COMM_SELF, MPI_ERRORS_ARE_FATAL);
}

static void check_communicators(void) {
    MPI_Comm world = MPI_COMM_WORLD, none = MPI_COMM_NULL, made;
    MPI_Group group, part;
    int rank;
    static const int ranks[] = {0, 0};
    ANSWERS(MPI_Comm_free(&world), MPI_ERR_COMM);
    ANSWERS(MPI_Comm_free(&none), MPI_ERR_COMM);
    ANSWERS(MPI_Comm_rank(MPI_COMM_NULL, &rank), MPI_ERR_COMM);
    ANSWERS(MPI_Comm_dup(MPI_COMM_NULL, &made), MPI_ERR_COMM);
    ANSWERS_HERE(MPI_Comm_split(MPI_COMM_WORLD, -3, 0, &made), MPI_ERR_ARG);
    MPI_Comm_group(MPI_COMM_WORLD, &group);
    ANSWERS_HERE(MPI_Group_incl(group, 2, ranks, &part), MPI_ERR_RANK);
    ANSWERS(MPI_Group_excl(group, 1, &test_size, &part), MPI_ERR_RANK);
    ANSWERS(MPI_Group_size(MPI_GROUP_NULL, &rank), MPI_ERR_GROUP);
    MPI_Group_free(&group);
}

/* Each class has words, which fit. */
static void check_strings(void) {
    char text[MPI_MAX_ERROR_STRING];
    int length = -1, class = -1;
    for (int code = MPI_SUCCESS; code <= MPI_ERR_RMA_SYNC && code <= 60; code++) {
        memset(text, 'x', sizeof text);
        if (MPI_Error_string(code, text, &length) != MPI_SUCCESS) continue;
        CHECK(length > 0 && length < MPI_MAX_ERROR_STRING && strlen(text) == (size_t)length);
    }
    MPI_Error_class(MPI_ERR_TRUNCATE, &class);
    CHECK(class == MPI_ERR_TRUNCATE && MPI_ERR_LASTCODE >= MPI_ERR_TRUNCATE);
}

/* The handler of a communicator is what it was set to; a copy and a part have their parent's (8.3). */
static void check_handlers(void) {
    MPI_Comm copy, part;
    MPI_Errhandler handler;
    MPI_Comm_get_errhandler(MPI_COMM_WORLD, &handler);
    CHECK(handler == MPI_ERRORS_RETURN);
    MPI_Errhandler_free(&handler);
    CHECK(handler == MPI_ERRHANDLER_NULL);
    MPI_Comm_get_errhandler(MPI_COMM_SELF, &handler);
    CHECK(handler == MPI_ERRORS_ARE_FATAL);
    MPI_Comm_dup(MPI_COMM_WORLD, &copy);
    MPI_Comm_split(copy, 0, 0, &part);
    MPI_Comm_get_errhandler(part, &handler);
    CHECK(handler == MPI_ERRORS_RETURN);
    ANSWERS(MPI_Send(&number, 1, MPI_INT, 99999, 0, part), MPI_ERR_RANK);
    MPI_Comm_free(&part);
    MPI_Comm_set_errhandler(copy, MPI_ERRORS_ARE_FATAL);
    MPI_Comm_dup(copy, &part);
    MPI_Comm_get_errhandler(part, &handler);
    CHECK(handler == MPI_ERRORS_ARE_FATAL);
    MPI_Comm_free(&part);
    MPI_Comm_free(&copy);
}

int main(int argc, char **argv) {
    test_begin(&argc, &argv);
    return_errors();
    check_sends();
    check_receives();
    check_types();
    check_collectives();
    check_communicators();
    check_strings();
    check_handlers();
    return test_end();
}
