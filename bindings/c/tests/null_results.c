/* What a call answers in isn't NULL: it is told in place of a crash, and nothing begins or ends. */
#include "test.h"

#define CHECK_ARG(call) CHECK(class_of(call) == MPI_ERR_ARG)

static void check_beginnings(void) {
    MPI_Comm comm = MPI_COMM_SELF;
    MPI_Message message;
    int row[2] = {0};
    CHECK_ARG(MPI_Isend(row, 1, MPI_INT, 0, 1, comm, NULL));
    CHECK_ARG(MPI_Issend(row, 1, MPI_INT, 0, 1, comm, NULL));
    CHECK_ARG(MPI_Irsend(row, 1, MPI_INT, 0, 1, comm, NULL));
    CHECK_ARG(MPI_Irecv(row, 1, MPI_INT, 0, 1, comm, NULL));
    CHECK_ARG(MPI_Isendrecv(row, 1, MPI_INT, 0, 1, row, 1, MPI_INT, 0, 1, comm, NULL));
    CHECK_ARG(MPI_Isendrecv_replace(row, 1, MPI_INT, 0, 1, 0, 1, comm, NULL));
    CHECK_ARG(MPI_Iprobe(0, 1, comm, NULL, MPI_STATUS_IGNORE));
    MPI_Send(row, 1, MPI_INT, 0, 1, comm);
    CHECK_ARG(MPI_Improbe(0, 1, comm, NULL, &message, MPI_STATUS_IGNORE));
    CHECK_ARG(MPI_Improbe(0, 1, comm, &(int){0}, NULL, MPI_STATUS_IGNORE));
    CHECK_ARG(MPI_Mprobe(0, 1, comm, NULL, MPI_STATUS_IGNORE));
    MPI_Mprobe(0, 1, comm, &message, MPI_STATUS_IGNORE);
    CHECK_ARG(MPI_Imrecv(row, 1, MPI_INT, &message, NULL));
    CHECK_ARG(MPI_Imrecv(row, 1, MPI_INT, NULL, &(MPI_Request){0}));
    CHECK_ARG(MPI_Mrecv(row, 1, MPI_INT, NULL, MPI_STATUS_IGNORE));
    CHECK(MPI_Mrecv(row, 1, MPI_INT, &message, MPI_STATUS_IGNORE) == MPI_SUCCESS);
}

static void check_ends(void) {
    int got = 0, sent = 7, number;
    MPI_Request request;
    MPI_Irecv(&got, 1, MPI_INT, 0, 2, MPI_COMM_SELF, &request);
    MPI_Send(&sent, 1, MPI_INT, 0, 2, MPI_COMM_SELF);
    CHECK_ARG(MPI_Wait(NULL, MPI_STATUS_IGNORE));
    CHECK_ARG(MPI_Test(NULL, &number, MPI_STATUS_IGNORE));
    CHECK_ARG(MPI_Test(&request, NULL, MPI_STATUS_IGNORE));
    CHECK_ARG(MPI_Request_get_status(request, NULL, MPI_STATUS_IGNORE));
    CHECK_ARG(MPI_Request_free(NULL));
    CHECK_ARG(MPI_Cancel(NULL));
    CHECK_ARG(MPI_Waitany(1, &request, NULL, MPI_STATUS_IGNORE));
    CHECK_ARG(MPI_Testany(1, &request, NULL, &number, MPI_STATUS_IGNORE));
    CHECK_ARG(MPI_Testany(1, &request, &number, NULL, MPI_STATUS_IGNORE));
    CHECK_ARG(MPI_Testall(1, &request, NULL, MPI_STATUSES_IGNORE));
    CHECK_ARG(MPI_Waitsome(1, &request, NULL, &number, MPI_STATUSES_IGNORE));
    CHECK_ARG(MPI_Waitsome(1, &request, &number, NULL, MPI_STATUSES_IGNORE));
    CHECK_ARG(MPI_Testsome(1, &request, NULL, &number, MPI_STATUSES_IGNORE));
    CHECK_ARG(MPI_Testsome(1, &request, &number, NULL, MPI_STATUSES_IGNORE));
    CHECK_ARG(MPI_Waitall(1, NULL, MPI_STATUSES_IGNORE));
    CHECK(MPI_Wait(&request, MPI_STATUS_IGNORE) == MPI_SUCCESS && got == 7);
}

static void check_statuses(void) {
    MPI_Status status = {.MPI_SOURCE = 0};
    int number;
    CHECK_ARG(MPI_Test_cancelled(NULL, &number));
    CHECK_ARG(MPI_Test_cancelled(&status, NULL));
    CHECK_ARG(MPI_Get_count(NULL, MPI_INT, &number));
    CHECK_ARG(MPI_Get_count(&status, MPI_INT, NULL));
    CHECK_ARG(MPI_Get_elements(NULL, MPI_INT, &number));
}

static void check_environment(void) {
    int number;
    char name[MPI_MAX_LIBRARY_VERSION_STRING];
    CHECK_ARG(MPI_Initialized(NULL));
    CHECK_ARG(MPI_Finalized(NULL));
    CHECK_ARG(MPI_Query_thread(NULL));
    CHECK_ARG(MPI_Is_thread_main(NULL));
    CHECK_ARG(MPI_Get_version(NULL, &number));
    CHECK_ARG(MPI_Get_version(&number, NULL));
    CHECK_ARG(MPI_Get_library_version(NULL, &number));
    CHECK_ARG(MPI_Get_library_version(name, NULL));
    CHECK_ARG(MPI_Get_processor_name(NULL, &number));
    CHECK_ARG(MPI_Get_processor_name(name, NULL));
    CHECK_ARG(MPI_Alloc_mem(8, MPI_INFO_NULL, NULL));
}

int main(int argc, char **argv) {
    test_begin(&argc, &argv);
    return_errors();
    MPI_Comm_set_errhandler(MPI_COMM_SELF, MPI_ERRORS_RETURN);
    check_beginnings();
    check_ends();
    check_statuses();
    check_environment();
    return test_end();
}
