/* MPI_Comm_create_group (MPI 3.1, 6.4.2): a group makes a communicator alone, and nobody else takes part. */
#include "test.h"

static MPI_Group every_other(int first) {
    MPI_Group all, some;
    int range[1][3] = {{first, test_size - 1, 2}};
    MPI_Comm_group(MPI_COMM_WORLD, &all);
    MPI_Group_range_incl(all, 1, range, &some);
    MPI_Group_free(&all);
    return some;
}

/* Messages, wildcards and collectives are of the members of the communicator alone. */
static void use(MPI_Comm comm, int first) {
    int rank = -1, size = 0, sum = -1, wanted = 0, own = test_rank, got = -1;
    MPI_Status status;
    MPI_Comm_rank(comm, &rank);
    MPI_Comm_size(comm, &size);
    CHECK(rank == (test_rank - first) / 2 && size == (test_size - first + 1) / 2);
    for (int at = 0; at < size; at++) wanted += first + 2 * at;
    MPI_Allreduce(&own, &sum, 1, MPI_INT, MPI_SUM, comm);
    CHECK(sum == wanted);
    MPI_Scan(&own, &sum, 1, MPI_INT, MPI_MAX, comm);
    CHECK(sum == test_rank);
    const int next = (rank + 1) % size, last = (rank + size - 1) % size;
    MPI_Sendrecv(&own, 1, MPI_INT, next, 3, &got, 1, MPI_INT, MPI_ANY_SOURCE, MPI_ANY_TAG, comm, &status);
    CHECK(status.MPI_SOURCE == last && status.MPI_TAG == 3 && got == first + 2 * last);
}

/* What is made of it has what is made of any communicator. */
static void make_others(MPI_Comm comm, int first) {
    MPI_Comm copy, part, later;
    MPI_Request request;
    int rank, size, result = -1, own = 1, sum = 0;
    MPI_Comm_rank(comm, &rank);
    MPI_Comm_size(comm, &size);
    MPI_Comm_dup(comm, &copy);
    MPI_Comm_compare(comm, copy, &result);
    CHECK(result == MPI_CONGRUENT);
    MPI_Comm_idup(copy, &later, &request);
    MPI_Wait(&request, MPI_STATUS_IGNORE);
    MPI_Comm_compare(comm, later, &result);
    CHECK(result == MPI_CONGRUENT);
    MPI_Comm_split(copy, rank % 2, -rank, &part);
    MPI_Allreduce(&own, &sum, 1, MPI_INT, MPI_SUM, part);
    CHECK(sum == (size + 1 - rank % 2) / 2);
    MPI_Comm_compare(comm, MPI_COMM_WORLD, &result);
    CHECK(result == MPI_UNEQUAL);
    use(copy, first);
    use(later, first);
    MPI_Comm_free(&copy);
    MPI_Comm_free(&later);
    MPI_Comm_free(&part);
}

/* Its group, name and attributes are as those of any other one. */
static void ask(MPI_Comm comm, MPI_Group group) {
    MPI_Group own;
    char name[MPI_MAX_OBJECT_NAME] = "";
    int result = -1, length = 0, key, flag = 0, *value = NULL;
    MPI_Comm_group(comm, &own);
    MPI_Group_compare(own, group, &result);
    CHECK(result == MPI_IDENT);
    MPI_Group_free(&own);
    MPI_Comm_set_name(comm, "row");
    MPI_Comm_get_name(comm, name, &length);
    CHECK(strcmp(name, "row") == 0 && length == 3);
    MPI_Comm_create_keyval(MPI_COMM_NULL_COPY_FN, MPI_COMM_NULL_DELETE_FN, &key, NULL);
    MPI_Comm_set_attr(comm, key, &result);
    MPI_Comm_get_attr(comm, key, &value, &flag);
    CHECK(flag && value == &result);
    MPI_Comm_free_keyval(&key);
    MPI_Comm_test_inter(comm, &flag);
    CHECK(!flag);
}

/* Two groups make one each at the same time; then all again, many times: numbers and engines are given back. */
static void check_halves(void) {
    const int first = test_rank % 2;
    MPI_Group group = every_other(first);
    for (int turn = 0; turn < 40; turn++) {
        MPI_Comm comm = MPI_COMM_NULL;
        MPI_Comm_create_group(MPI_COMM_WORLD, group, turn % 3, &comm);
        use(comm, first);
        if (turn == 0) make_others(comm, first), ask(comm, group);
        MPI_Comm_free(&comm);
        CHECK(comm == MPI_COMM_NULL);
    }
    MPI_Group_free(&group);
}

/* Those outside wait for a message that is sent once the communicator is used: they can't take part. */
static void check_alone(void) {
    MPI_Group group = every_other(0);
    MPI_Comm comm = MPI_COMM_WORLD;
    int told = -1;
    if (test_rank % 2 == 0) {
        MPI_Comm_create_group(MPI_COMM_WORLD, group, 5, &comm);
        use(comm, 0);
        MPI_Comm_free(&comm);
        if (test_rank + 1 < test_size) MPI_Send(&test_rank, 1, MPI_INT, test_rank + 1, 0, MPI_COMM_WORLD);
    } else {
        MPI_Recv(&told, 1, MPI_INT, test_rank - 1, 0, MPI_COMM_WORLD, MPI_STATUS_IGNORE);
        CHECK(told == test_rank - 1);
        MPI_Comm_create_group(MPI_COMM_WORLD, group, 5, &comm);
        CHECK(comm == MPI_COMM_NULL);
    }
    MPI_Group_free(&group);
}

/* The first member goes on at once: its message comes to a member that hasn't made the communicator yet. */
static void check_early(void) {
    MPI_Group group;
    MPI_Comm comm;
    int rows[600] = {0};
    MPI_Comm_group(MPI_COMM_WORLD, &group);
    if (test_rank != 0) MPI_Recv(rows, 1, MPI_INT, 0, 9, MPI_COMM_WORLD, MPI_STATUS_IGNORE);
    MPI_Comm_create_group(MPI_COMM_WORLD, group, 0, &comm);
    fill(rows, sizeof rows, test_rank == 0 ? 5 : 6);
    for (int to = 1; test_rank == 0 && to < test_size; to++) {
        MPI_Request request;
        MPI_Isend(rows, 600, MPI_INT, to, 1, comm, &request);
        MPI_Send(&to, 1, MPI_INT, to, 2, comm);
        MPI_Send(&to, 1, MPI_INT, to, 9, MPI_COMM_WORLD);
        MPI_Wait(&request, MPI_STATUS_IGNORE);
    }
    if (test_rank != 0) {
        int own = -1;
        MPI_Recv(&own, 1, MPI_INT, 0, 2, comm, MPI_STATUS_IGNORE);
        MPI_Recv(rows, 600, MPI_INT, MPI_ANY_SOURCE, 1, comm, MPI_STATUS_IGNORE);
        CHECK(own == test_rank && is_filled(rows, sizeof rows, 5));
    }
    MPI_Comm_free(&comm);
    MPI_Group_free(&group);
}

/* A request keeps its communicator, and the communicator its engine. */
static void check_freed(void) {
    MPI_Group group = every_other(0);
    MPI_Comm comm;
    MPI_Request requests[2];
    int own = test_rank, got = -1;
    if (test_rank % 2 == 0) {
        MPI_Comm_create_group(MPI_COMM_WORLD, group, 0, &comm);
        const int size = (test_size + 1) / 2, rank = test_rank / 2;
        MPI_Irecv(&got, 1, MPI_INT, (rank + 1) % size, 4, comm, &requests[0]);
        MPI_Issend(&own, 1, MPI_INT, (rank + size - 1) % size, 4, comm, &requests[1]);
        MPI_Comm_free(&comm);
        MPI_Waitall(2, requests, MPI_STATUSES_IGNORE);
        CHECK(got == (rank + 1) % size * 2);
    }
    MPI_Group_free(&group);
}

/* A send is at its end before its data have come: they come though its communicator is freed at once. */
static void check_sent(void) {
    enum { LENGTH = 4 << 20 };
    MPI_Group group;
    MPI_Comm comm;
    char *row = calloc(LENGTH, 1);
    MPI_Comm_group(MPI_COMM_WORLD, &group);
    MPI_Comm_create_group(MPI_COMM_WORLD, group, 1, &comm);
    if (test_rank % 2 == 1) {
        MPI_Recv(row, LENGTH, MPI_CHAR, test_rank - 1, 0, comm, MPI_STATUS_IGNORE);
        CHECK(is_filled(row, LENGTH, 8));
    } else if (test_rank + 1 < test_size) {
        fill(row, LENGTH, 8);
        MPI_Send(row, LENGTH, MPI_CHAR, test_rank + 1, 0, comm);
    }
    MPI_Comm_free(&comm);
    MPI_Group_free(&group);
    free(row);
}

static void check_errors(void) {
    MPI_Group group;
    MPI_Comm self, comm = MPI_COMM_WORLD;
    const int none = 0;
    return_errors();
    MPI_Comm_group(MPI_COMM_WORLD, &group);
    MPI_Comm_dup(MPI_COMM_SELF, &self);
    MPI_Comm_set_errhandler(self, MPI_ERRORS_RETURN);
    if (test_size > 1) CHECK(class_of(MPI_Comm_create_group(self, group, 0, &comm)) == MPI_ERR_GROUP);
    CHECK(class_of(MPI_Comm_create_group(MPI_COMM_WORLD, group, -3, &comm)) == MPI_ERR_TAG);
    CHECK(class_of(MPI_Comm_create_group(MPI_COMM_WORLD, MPI_GROUP_NULL, 0, &comm)) == MPI_ERR_GROUP);
    CHECK(class_of(MPI_Comm_create_group(MPI_COMM_NULL, group, 0, &comm)) == MPI_ERR_COMM);
    CHECK(class_of(MPI_Comm_create_group(MPI_COMM_WORLD, group, 0, NULL)) == MPI_ERR_ARG);
    MPI_Group_free(&group);
    MPI_Comm_group(MPI_COMM_WORLD, &group);
    MPI_Group_free(&group);
    MPI_Comm_group(MPI_COMM_SELF, &group);
    MPI_Group empty;
    MPI_Group_incl(group, 0, &none, &empty);
    CHECK(MPI_Comm_create_group(MPI_COMM_WORLD, empty, 0, &comm) == MPI_SUCCESS && comm == MPI_COMM_NULL);
    CHECK(MPI_Comm_create_group(self, group, 0, &comm) == MPI_SUCCESS && comm != MPI_COMM_NULL);
    MPI_Barrier(comm);
    MPI_Comm_free(&comm);
    MPI_Comm_free(&self);
    MPI_Group_free(&group);
}

int main(int argc, char **argv) {
    test_begin(&argc, &argv);
    check_halves();
    check_alone();
    check_early();
    check_freed();
    check_sent();
    check_errors();
    return test_end();
}
