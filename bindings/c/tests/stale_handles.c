/* A copy of a handle whose object is gone names nothing, also where another object has come since: it is told (2.5.1).
 */
#include "test.h"

/* A second wait for a request that has ended doesn't end another one. */
static void check_requests(void) {
    int sent = 7, first = 0, second = 0, flag = 5;
    MPI_Request request, old, next;
    MPI_Irecv(&first, 1, MPI_INT, 0, 1, MPI_COMM_SELF, &request);
    MPI_Send(&sent, 1, MPI_INT, 0, 1, MPI_COMM_SELF);
    old = request;
    MPI_Wait(&request, MPI_STATUS_IGNORE);
    for (int i = 0; i < 100; i++) {
        MPI_Irecv(&second, 1, MPI_INT, 0, 2, MPI_COMM_SELF, &next);
        CHECK(next != old);
        MPI_Request copy = old;
        CHECK(class_of(MPI_Wait(&copy, MPI_STATUS_IGNORE)) == MPI_ERR_REQUEST);
        CHECK(class_of(MPI_Test(&copy, &flag, MPI_STATUS_IGNORE)) == MPI_ERR_REQUEST && flag == 5);
        CHECK(class_of(MPI_Waitall(1, &copy, MPI_STATUSES_IGNORE)) == MPI_ERR_REQUEST);
        CHECK(class_of(MPI_Cancel(&copy)) == MPI_ERR_REQUEST);
        CHECK(class_of(MPI_Request_free(&copy)) == MPI_ERR_REQUEST && copy == old);
        MPI_Send(&i, 1, MPI_INT, 0, 2, MPI_COMM_SELF);
        CHECK(MPI_Wait(&next, MPI_STATUS_IGNORE) == MPI_SUCCESS && second == i && next == MPI_REQUEST_NULL);
    }
}

static void check_messages(void) {
    int sent = 7, got = 0;
    MPI_Message message, old, next;
    for (int i = 0; i < 2; i++) MPI_Send(&sent, 1, MPI_INT, 0, 3, MPI_COMM_SELF);
    MPI_Mprobe(0, 3, MPI_COMM_SELF, &message, MPI_STATUS_IGNORE);
    old = message;
    MPI_Mrecv(&got, 1, MPI_INT, &message, MPI_STATUS_IGNORE);
    MPI_Mprobe(0, 3, MPI_COMM_SELF, &next, MPI_STATUS_IGNORE);
    CHECK(class_of(MPI_Mrecv(&got, 1, MPI_INT, &old, MPI_STATUS_IGNORE)) == MPI_ERR_REQUEST);
    CHECK(MPI_Mrecv(&got, 1, MPI_INT, &next, MPI_STATUS_IGNORE) == MPI_SUCCESS);
}

static void check_others(void) {
    MPI_Datatype type, old_type;
    MPI_Comm comm, old_comm;
    MPI_Group all, group, old_group;
    int number = 5;
    MPI_Type_contiguous(2, MPI_INT, &type);
    old_type = type;
    MPI_Type_free(&type);
    MPI_Type_contiguous(3, MPI_DOUBLE, &type);
    CHECK(class_of(MPI_Type_size(old_type, &number)) == MPI_ERR_TYPE);
    MPI_Comm_dup(MPI_COMM_SELF, &comm);
    old_comm = comm;
    CHECK(MPI_Comm_f2c(MPI_Comm_c2f(comm)) == comm);
    MPI_Comm_free(&comm);
    MPI_Comm_dup(MPI_COMM_SELF, &comm);
    CHECK(MPI_Comm_f2c(MPI_Comm_c2f(comm)) == comm && comm != old_comm);
    CHECK(class_of(MPI_Comm_size(old_comm, &number)) == MPI_ERR_COMM);
    MPI_Comm_group(MPI_COMM_SELF, &all);
    MPI_Group_incl(all, 1, &(int){0}, &group);
    old_group = group;
    MPI_Group_free(&group);
    MPI_Group_incl(all, 1, &(int){0}, &group);
    CHECK(class_of(MPI_Group_size(old_group, &number)) == MPI_ERR_GROUP);
    CHECK(number == 5 && MPI_Group_size(group, &number) == MPI_SUCCESS && number == 1);
    MPI_Group_free(&group);
    MPI_Group_free(&all);
    MPI_Comm_free(&comm);
    MPI_Type_free(&type);
}

int main(int argc, char **argv) {
    test_begin(&argc, &argv);
    return_errors();
    MPI_Comm_set_errhandler(MPI_COMM_SELF, MPI_ERRORS_RETURN);
    check_requests();
    check_messages();
    check_others();
    CHECK(MPI_Comm_f2c(MPI_Comm_c2f(MPI_COMM_WORLD)) == MPI_COMM_WORLD);
    CHECK(MPI_Comm_f2c(MPI_Comm_c2f(MPI_COMM_NULL)) == MPI_COMM_NULL);
    return test_end();
}
