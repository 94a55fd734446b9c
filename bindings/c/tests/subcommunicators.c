/* Communicators of groups and of machines, copies with a request, ranges of groups (MPI 3.1, 6.3.2, 6.4.2, 10.5.4). */
#include "test.h"

static MPI_Group world;

static void check_ranges(void) {
    int ranges[][3] = {{4, 0, -2}, {1, 1, 5}}, all[][3] = {{0, 4, 1}}, size = -1, from[] = {0, 1, 2, 3}, to[4];
    int twice[][3] = {{0, 2, 1}, {2, 3, 1}}, turned[][3] = {{3, 1, 1}}, far[][3] = {{0, 9, 1}};
    MPI_Group group, left;
    if (test_size < 5) return;
    MPI_Group_range_incl(world, 2, ranges, &group);
    MPI_Group_size(group, &size);
    MPI_Group_translate_ranks(group, 4, from, world, to);
    CHECK(size == 4 && to[0] == 4 && to[1] == 2 && to[2] == 0 && to[3] == 1);
    CHECK(MPI_Group_f2c(MPI_Group_c2f(group)) == group);
    CHECK(MPI_Group_f2c(MPI_Group_c2f(MPI_GROUP_EMPTY)) == MPI_GROUP_EMPTY);
    CHECK(MPI_Group_f2c(MPI_Group_c2f(MPI_GROUP_NULL)) == MPI_GROUP_NULL);
    MPI_Group_range_excl(world, 2, ranges, &left);
    MPI_Group_size(left, &size);
    MPI_Group_translate_ranks(left, 1, from, world, to);
    CHECK(size == test_size - 4 && to[0] == 3);
    MPI_Group_free(&left);
    MPI_Group_range_excl(group, 0, NULL, &left);
    MPI_Group_compare(group, left, &size);
    CHECK(size == MPI_IDENT);
    MPI_Group_free(&left);
    MPI_Group_free(&group);
    MPI_Group_range_excl(world, 1, all, &left);
    MPI_Group_size(left, &size);
    CHECK(size == test_size - 5);
    MPI_Group_free(&left);
    return_errors();
    CHECK(class_of(MPI_Group_range_incl(world, 2, twice, &group)) == MPI_ERR_RANK);
    CHECK(class_of(MPI_Group_range_incl(world, 1, turned, &group)) == MPI_ERR_ARG);
    CHECK(class_of(MPI_Group_range_incl(world, 1, far, &group)) == MPI_ERR_RANK);
}

/* In the group's order; the others get none. */
static void check_group(void) {
    int ranks[] = {3, 1}, rank = -1, size = -1, sum = 0;
    MPI_Group group;
    MPI_Comm comm;
    MPI_Group_incl(world, 2, ranks, &group);
    MPI_Comm_create(MPI_COMM_WORLD, group, &comm);
    CHECK((comm != MPI_COMM_NULL) == (test_rank == 3 || test_rank == 1));
    if (comm != MPI_COMM_NULL) {
        MPI_Comm_rank(comm, &rank);
        MPI_Comm_size(comm, &size);
        CHECK(size == 2 && rank == (test_rank == 1));
        MPI_Allreduce(&test_rank, &sum, 1, MPI_INT, MPI_SUM, comm);
        CHECK(sum == 4);
        MPI_Comm_free(&comm);
    }
    MPI_Group_free(&group);
    /* Groups that have no member in common make communicators of their own. */
    MPI_Group_incl(world, 1, &test_rank, &group);
    MPI_Comm_create(MPI_COMM_WORLD, group, &comm);
    MPI_Comm_size(comm, &size);
    CHECK(size == 1);
    MPI_Comm_free(&comm);
    MPI_Comm_set_errhandler(MPI_COMM_SELF, MPI_ERRORS_RETURN);
    CHECK(class_of(MPI_Comm_create(MPI_COMM_SELF, world, &comm)) == (test_size > 1 ? MPI_ERR_GROUP : MPI_SUCCESS));
    MPI_Group_free(&group);
    MPI_Comm_create(MPI_COMM_WORLD, MPI_GROUP_EMPTY, &comm);
    CHECK(comm == MPI_COMM_NULL);
}

static void check_machine(void) {
    MPI_Comm comm;
    int size = 0, rank = -1, all = 0;
    MPI_Comm_split_type(MPI_COMM_WORLD, MPI_COMM_TYPE_SHARED, -test_rank, MPI_INFO_NULL, &comm);
    MPI_Comm_size(comm, &size);
    MPI_Comm_rank(comm, &rank);
    MPI_Allreduce(&size, &all, 1, MPI_INT, MPI_MIN, comm);
    CHECK(size >= 1 && all == size && rank >= 0 && rank < size);
    if (size == test_size) CHECK(rank == test_size - 1 - test_rank);
    MPI_Comm_free(&comm);
    MPI_Comm_split_type(MPI_COMM_WORLD, MPI_UNDEFINED, 0, MPI_INFO_NULL, &comm);
    CHECK(comm == MPI_COMM_NULL);
}

/* By a resource that is named or found (MPI 4.0, 7.4.2): a machine, where it has a part of the ranks alone. */
static void check_resources(void) {
    char value[MPI_MAX_INFO_VAL + 1] = "";
    MPI_Comm shared, named, found;
    MPI_Info info;
    int result = -1, size = 0, flag = 1;
    MPI_Info_create(&info);
    MPI_Comm_split_type(MPI_COMM_WORLD, MPI_COMM_TYPE_SHARED, 0, MPI_INFO_NULL, &shared);
    MPI_Comm_size(shared, &size);
    MPI_Comm_split_type(MPI_COMM_WORLD, MPI_COMM_TYPE_HW_GUIDED, 0, MPI_INFO_NULL, &named);
    CHECK(named == MPI_COMM_NULL);
    MPI_Comm_split_type(MPI_COMM_WORLD, MPI_COMM_TYPE_HW_GUIDED, 0, info, &named);
    CHECK(named == MPI_COMM_NULL);
    MPI_Info_set(info, "mpi_hw_resource_type", "no such resource");
    MPI_Comm_split_type(MPI_COMM_WORLD, MPI_COMM_TYPE_HW_GUIDED, 0, info, &named);
    CHECK(named == MPI_COMM_NULL);
    MPI_Info_set(info, "mpi_hw_resource_type", "mpi_shared_memory");
    MPI_Comm_split_type(MPI_COMM_WORLD, MPI_COMM_TYPE_HW_GUIDED, 0, info, &named);
    MPI_Comm_compare(shared, named, &result);
    CHECK(result == MPI_CONGRUENT);
    MPI_Comm_free(&named);
    MPI_Info_delete(info, "mpi_hw_resource_type");
    MPI_Comm_split_type(MPI_COMM_WORLD, MPI_COMM_TYPE_HW_UNGUIDED, 0, info, &found);
    MPI_Info_get(info, "mpi_hw_resource_type", MPI_MAX_INFO_VAL, value, &flag);
    CHECK((found == MPI_COMM_NULL) == (size == test_size) && flag == (size < test_size));
    if (found != MPI_COMM_NULL) {
        MPI_Comm_compare(shared, found, &result);
        CHECK(result == MPI_CONGRUENT && strcmp(value, "mpi_shared_memory") == 0);
        MPI_Comm_free(&found);
    }
    MPI_Comm_free(&shared);
    MPI_Info_free(&info);
    CHECK(class_of(MPI_Comm_split_type(MPI_COMM_WORLD, 99, 0, MPI_INFO_NULL, &found)) == MPI_ERR_ARG);
}

static void check_requests(void) {
    MPI_Comm copies[3];
    MPI_Request requests[3];
    int result = -1;
    for (int at = 0; at < 3; at++) {
        MPI_Comm parent = at == 0 ? MPI_COMM_WORLD : copies[0];
        if (at == 2) MPI_Comm_idup_with_info(parent, MPI_INFO_NULL, &copies[at], &requests[at]);
        else MPI_Comm_idup(parent, &copies[at], &requests[at]);
        CHECK(requests[at] != MPI_REQUEST_NULL);
        if (at == 0) MPI_Wait(&requests[at], MPI_STATUS_IGNORE);
    }
    MPI_Waitall(3, requests, MPI_STATUSES_IGNORE);
    CHECK(requests[1] == MPI_REQUEST_NULL);
    MPI_Comm_compare(copies[2], MPI_COMM_WORLD, &result);
    CHECK(result == MPI_CONGRUENT);
    for (int at = 0; at < 3; at++) MPI_Comm_free(&copies[at]);
}

/* MPI_Comm_disconnect waits for what is pending (10.5.4). */
static void check_end(void) {
    MPI_Comm copy;
    MPI_Request request;
    int flag = 0, own = test_rank, got = -1;
    const int next = (test_rank + 1) % test_size, last = (test_rank + test_size - 1) % test_size;
    MPI_Comm_dup(MPI_COMM_WORLD, &copy);
    MPI_Irecv(&got, 1, MPI_INT, last, 0, copy, &request);
    MPI_Send(&own, 1, MPI_INT, next, 0, copy);
    MPI_Comm_disconnect(&copy);
    CHECK(copy == MPI_COMM_NULL && got == last);
    MPI_Test(&request, &flag, MPI_STATUS_IGNORE);
    CHECK(flag);
}

int main(int argc, char **argv) {
    test_begin(&argc, &argv);
    MPI_Comm_group(MPI_COMM_WORLD, &world);
    check_ranges();
    check_group();
    check_machine();
    check_resources();
    check_requests();
    check_end();
    MPI_Group_free(&world);
    return test_end();
}
