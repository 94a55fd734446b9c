/* Generalised requests (MPI 3.1, 12.2): the program tells of their ends, and its functions are called as MPI says.
 * Statuses and requests as Fortran has them (17.2). */
#include "test.h"

enum { MANY = 4 };

/* What the functions of a request were asked, and what they answer. */
struct state {
    int queries, frees, cancels, was_complete;
    int tag, query_code, free_code, cancel_code;
};

static int query(void *extra_state, MPI_Status *status) {
    struct state *it = extra_state;
    it->queries++;
    CHECK(it->frees == 0);
    status->MPI_SOURCE = 3;
    status->MPI_TAG = it->tag;
    return it->query_code;
}

static int forget(void *extra_state) {
    struct state *it = extra_state;
    it->frees++;
    return it->free_code;
}

static int cancel(void *extra_state, int complete) {
    struct state *it = extra_state;
    it->cancels++;
    it->was_complete = complete;
    return it->cancel_code;
}

static MPI_Request begun(struct state *it) {
    MPI_Request request = MPI_REQUEST_NULL;
    MPI_Grequest_start(query, forget, cancel, it, &request);
    CHECK(request != MPI_REQUEST_NULL);
    return request;
}

static void check_one(void) {
    struct state it = {.tag = 5};
    MPI_Request request = begun(&it);
    MPI_Status status = {.MPI_ERROR = 77};
    int flag = 1;
    MPI_Test(&request, &flag, &status);
    CHECK(!flag && it.queries == 0);
    MPI_Request_get_status(request, &flag, &status);
    CHECK(!flag && it.queries == 0);
    MPI_Cancel(&request);
    CHECK(it.cancels == 1 && it.was_complete == 0);
    MPI_Grequest_complete(request);
    CHECK(it.queries == 0 && it.frees == 0);
    MPI_Cancel(&request);
    CHECK(it.cancels == 2 && it.was_complete != 0);
    MPI_Request_get_status(request, &flag, &status);
    CHECK(flag && it.queries == 1 && it.frees == 0 && status.MPI_TAG == 5 && request != MPI_REQUEST_NULL);
    MPI_Wait(&request, &status);
    CHECK(request == MPI_REQUEST_NULL && it.queries == 2 && it.frees == 1);
    CHECK(status.MPI_SOURCE == 3 && status.MPI_TAG == 5 && status.MPI_ERROR == 77);
    it = (struct state){.tag = 6};
    request = begun(&it);
    MPI_Grequest_complete(request);
    MPI_Test(&request, &flag, MPI_STATUS_IGNORE);
    CHECK(flag && request == MPI_REQUEST_NULL && it.queries == 1 && it.frees == 1);
}

/* In lists, among others. */
static void check_lists(void) {
    struct state of[MANY] = {{.tag = 0}, {.tag = 1}, {.tag = 2}, {.tag = 3}};
    MPI_Request list[MANY + 1];
    MPI_Status statuses[MANY + 1];
    int flag = 1, index = -1, count = -1, indices[MANY + 1], number;
    for (int i = 0; i < MANY; i++) list[i] = begun(&of[i]);
    MPI_Irecv(&number, 1, MPI_INT, MPI_PROC_NULL, 0, MPI_COMM_WORLD, &list[MANY]);
    MPI_Waitany(MANY + 1, list, &index, statuses);
    CHECK(index == MANY);
    MPI_Testany(MANY, list, &index, &flag, statuses);
    CHECK(!flag);
    MPI_Grequest_complete(list[2]);
    MPI_Waitany(MANY, list, &index, &statuses[0]);
    CHECK(index == 2 && statuses[0].MPI_TAG == 2 && of[2].queries == 1 && of[2].frees == 1);
    MPI_Grequest_complete(list[1]);
    MPI_Testsome(MANY, list, &count, indices, statuses);
    CHECK(count == 1 && indices[0] == 1 && statuses[0].MPI_TAG == 1 && of[1].frees == 1);
    MPI_Testall(MANY, list, &flag, MPI_STATUSES_IGNORE);
    CHECK(!flag && of[0].queries == 0);
    MPI_Grequest_complete(list[0]);
    MPI_Grequest_complete(list[3]);
    MPI_Waitall(MANY, list, statuses);
    CHECK(statuses[0].MPI_TAG == 0 && statuses[3].MPI_TAG == 3 && statuses[1].MPI_TAG == MPI_ANY_TAG);
    for (int i = 0; i < MANY; i++) CHECK(of[i].queries == 1 && of[i].frees == 1 && list[i] == MPI_REQUEST_NULL);
}

/* One that is freed is given back once it is freed and complete, in whichever order. */
static void check_freed(void) {
    struct state first = {0}, last = {0};
    MPI_Request request = begun(&first), copy;
    MPI_Grequest_complete(request);
    MPI_Request_free(&request);
    CHECK(request == MPI_REQUEST_NULL && first.queries == 0 && first.frees == 1);
    copy = request = begun(&last);
    MPI_Request_free(&request);
    CHECK(request == MPI_REQUEST_NULL && last.frees == 0);
    MPI_Barrier(MPI_COMM_WORLD);
    CHECK(last.frees == 0);
    MPI_Grequest_complete(copy);
    CHECK(last.frees == 1 && last.queries == 0);
}

/* What the functions answer is answered; of both it is what the free function says. */
static void check_codes(void) {
    struct state query_fails = {.query_code = MPI_ERR_FILE}, free_fails = {.free_code = MPI_ERR_IO};
    struct state both = {.query_code = MPI_ERR_FILE, .free_code = MPI_ERR_IO}, fine = {0};
    struct state cancel_fails = {.cancel_code = MPI_ERR_NAME};
    MPI_Status statuses[3] = {{.MPI_ERROR = 77}, {.MPI_ERROR = 77}, {.MPI_ERROR = 77}};
    return_errors();
    MPI_Request request = begun(&query_fails), list[3] = {begun(&free_fails), begun(&fine), begun(&both)};
    MPI_Grequest_complete(request);
    CHECK(class_of(MPI_Wait(&request, MPI_STATUS_IGNORE)) == MPI_ERR_FILE && request == MPI_REQUEST_NULL);
    for (int i = 0; i < 3; i++) MPI_Grequest_complete(list[i]);
    CHECK(class_of(MPI_Waitall(3, list, statuses)) == MPI_ERR_IN_STATUS);
    CHECK(statuses[0].MPI_ERROR == MPI_ERR_IO && statuses[1].MPI_ERROR == 0 && statuses[2].MPI_ERROR == MPI_ERR_IO);
    request = begun(&cancel_fails);
    CHECK(class_of(MPI_Cancel(&request)) == MPI_ERR_NAME);
    MPI_Grequest_complete(request);
    CHECK(class_of(MPI_Grequest_complete(request)) == MPI_ERR_REQUEST);
    MPI_Wait(&request, MPI_STATUS_IGNORE);
    CHECK(class_of(MPI_Grequest_complete(MPI_REQUEST_NULL)) == MPI_ERR_REQUEST);
    MPI_Irecv(NULL, 0, MPI_INT, MPI_PROC_NULL, 0, MPI_COMM_WORLD, &request);
    CHECK(class_of(MPI_Grequest_complete(request)) == MPI_ERR_REQUEST);
    MPI_Wait(&request, MPI_STATUS_IGNORE);
    CHECK(class_of(MPI_Grequest_start(query, forget, cancel, NULL, NULL)) == MPI_ERR_ARG);
}

/* Statuses and handles go to Fortran and back. */
static void check_fortran(void) {
    MPI_Fint of_fortran[MPI_F_STATUS_SIZE];
    MPI_F08_status of_2008;
    MPI_Status status, back;
    MPI_Request request;
    int number = 5, got = 0, count = 0;
    MPI_Irecv(&got, 1, MPI_INT, 0, 4, MPI_COMM_SELF, &request);
    CHECK(MPI_Request_f2c(MPI_Request_c2f(request)) == request);
    CHECK(MPI_Request_f2c(MPI_Request_c2f(MPI_REQUEST_NULL)) == MPI_REQUEST_NULL);
    CHECK(MPI_Message_f2c(MPI_Message_c2f(MPI_MESSAGE_NO_PROC)) == MPI_MESSAGE_NO_PROC);
    MPI_Send(&number, 1, MPI_INT, 0, 4, MPI_COMM_SELF);
    status.MPI_ERROR = 9;
    MPI_Wait(&request, &status);
    CHECK(MPI_Status_c2f(&status, of_fortran) == MPI_SUCCESS);
    CHECK(of_fortran[MPI_F_SOURCE] == 0 && of_fortran[MPI_F_TAG] == 4 && of_fortran[MPI_F_ERROR] == 9);
    CHECK(MPI_Status_f2c(of_fortran, &back) == MPI_SUCCESS);
    MPI_Get_count(&back, MPI_INT, &count);
    CHECK(back.MPI_TAG == 4 && count == 1);
    CHECK(MPI_Status_c2f08(&status, &of_2008) == MPI_SUCCESS && of_2008.MPI_TAG == 4);
    memset(&back, 0, sizeof back);
    CHECK(MPI_Status_f082c(&of_2008, &back) == MPI_SUCCESS && back.MPI_TAG == 4 && back.MPI_ERROR == 9);
    CHECK(class_of(MPI_Status_f2c(MPI_F_STATUS_IGNORE, &back)) == MPI_ERR_ARG);
    CHECK(class_of(MPI_Status_f2c(MPI_F_STATUSES_IGNORE, &back)) == MPI_ERR_ARG);
    CHECK(class_of(MPI_Status_c2f(MPI_STATUS_IGNORE, of_fortran)) == MPI_ERR_ARG);
}

int main(int argc, char **argv) {
    test_begin(&argc, &argv);
    check_one();
    check_lists();
    check_freed();
    check_codes();
    check_fortran();
    return test_end();
}
