/* Null requests end at once, with the empty status (MPI 3.1, 3.7.3 and 3.7.5). */
#include "test.h"

static void spoil(MPI_Status *status) { memset(status, 0x5a, sizeof *status); }

static void check_empty(const MPI_Status *status) {
    int count = -1, cancelled = -1;
    CHECK(status->MPI_SOURCE == MPI_ANY_SOURCE);
    CHECK(status->MPI_TAG == MPI_ANY_TAG);
    CHECK(status->MPI_ERROR == MPI_SUCCESS);
    MPI_Get_count(status, MPI_INT, &count);
    CHECK(count == 0);
    MPI_Test_cancelled(status, &cancelled);
    CHECK(cancelled == 0);
}

static void check_one(void) {
    MPI_Request request = MPI_REQUEST_NULL;
    MPI_Status status;
    int flag = 0;
    spoil(&status);
    MPI_Wait(&request, &status);
    check_empty(&status);
    spoil(&status);
    MPI_Test(&request, &flag, &status);
    CHECK(flag);
    check_empty(&status);
    flag = 0;
    spoil(&status);
    MPI_Request_get_status(request, &flag, &status);
    CHECK(flag);
    check_empty(&status);
    MPI_Request_get_status(request, &flag, MPI_STATUS_IGNORE);
    CHECK(flag);
}

static void check_lists(void) {
    MPI_Request list[3] = {MPI_REQUEST_NULL, MPI_REQUEST_NULL, MPI_REQUEST_NULL};
    MPI_Status statuses[3];
    int index = 7, flag = 0, count = 7, places[3];
    memset(statuses, 0x5a, sizeof statuses);
    MPI_Waitall(3, list, statuses);
    for (int i = 0; i < 3; i++) check_empty(&statuses[i]);
    memset(statuses, 0x5a, sizeof statuses);
    MPI_Testall(3, list, &flag, statuses);
    CHECK(flag);
    for (int i = 0; i < 3; i++) check_empty(&statuses[i]);
    spoil(statuses);
    MPI_Waitany(3, list, &index, statuses);
    CHECK(index == MPI_UNDEFINED);
    check_empty(statuses);
    flag = 0, index = 7;
    spoil(statuses);
    MPI_Testany(3, list, &index, &flag, statuses);
    CHECK(flag && index == MPI_UNDEFINED);
    check_empty(statuses);
    MPI_Waitsome(3, list, &count, places, statuses);
    CHECK(count == MPI_UNDEFINED);
    count = 7;
    MPI_Testsome(3, list, &count, places, statuses);
    CHECK(count == MPI_UNDEFINED);
}

/* Lists of no requests. */
static void check_no_list(void) {
    int index = 7, flag = 0, count = 7;
    MPI_Status status;
    MPI_Waitall(0, NULL, MPI_STATUSES_IGNORE);
    MPI_Testall(0, NULL, &flag, MPI_STATUSES_IGNORE);
    CHECK(flag);
    MPI_Waitany(0, NULL, &index, &status);
    CHECK(index == MPI_UNDEFINED);
    flag = 0, index = 7;
    MPI_Testany(0, NULL, &index, &flag, &status);
    CHECK(flag && index == MPI_UNDEFINED);
    MPI_Waitsome(0, NULL, &count, NULL, MPI_STATUSES_IGNORE);
    CHECK(count == MPI_UNDEFINED);
}

int main(int argc, char **argv) {
    test_begin(&argc, &argv);
    check_one();
    check_lists();
    check_no_list();
    return test_end();
}
