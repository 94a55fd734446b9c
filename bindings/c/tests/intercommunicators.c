/* Intercommunicators (MPI 3.1, 6.6): how they are made, messages over them, and what is made of them. */
#include "test.h"

/* Ranks of MPI_COMM_WORLD below `border` are one group, the others the other one. */
static int border, is_upper, own_size, other_size, own_rank, other_first;
static MPI_Comm half;

static void open_halves(void) {
    border = test_size / 2 + 1;
    if (border == test_size) border--;
    is_upper = test_rank >= border;
    /* The upper group counts from the end. */
    MPI_Comm_split(MPI_COMM_WORLD, is_upper, is_upper ? -test_rank : test_rank, &half);
    MPI_Comm_size(half, &own_size);
    MPI_Comm_rank(half, &own_rank);
    other_size = test_size - own_size;
    other_first = is_upper ? 0 : test_size - 1;
}

/* The rank in MPI_COMM_WORLD of a rank of the other group. */
static int other_of(int rank) { return is_upper ? rank : test_size - 1 - rank; }

static MPI_Comm pair(int tag) {
    MPI_Comm inter = MPI_COMM_NULL;
    MPI_Intercomm_create(half, 0, MPI_COMM_WORLD, other_first, tag, &inter);
    return inter;
}

static void check_group(MPI_Comm inter, bool is_own, int size, int first, int step) {
    MPI_Group group, all;
    int *ranks = calloc((size_t)size, sizeof *ranks), *found = calloc((size_t)size, sizeof *found), count = -1;
    for (int at = 0; at < size; at++) ranks[at] = at;
    if (is_own) MPI_Comm_group(inter, &group);
    else MPI_Comm_remote_group(inter, &group);
    MPI_Comm_group(MPI_COMM_WORLD, &all);
    MPI_Group_size(group, &count);
    CHECK(count == size);
    MPI_Group_translate_ranks(group, size, ranks, all, found);
    for (int at = 0; at < size; at++) CHECK(found[at] == first + step * at);
    MPI_Group_free(&group);
    MPI_Group_free(&all);
    free(ranks);
    free(found);
}

static void check_facts(MPI_Comm inter) {
    int size = -1, rank = -1, flag = 0, result = -1;
    MPI_Comm_size(inter, &size);
    MPI_Comm_rank(inter, &rank);
    CHECK(size == own_size && rank == own_rank);
    MPI_Comm_remote_size(inter, &size);
    MPI_Comm_test_inter(inter, &flag);
    CHECK(size == other_size && flag);
    check_group(inter, true, own_size, is_upper ? test_size - 1 : 0, is_upper ? -1 : 1);
    check_group(inter, false, other_size, other_first, is_upper ? 1 : -1);
    MPI_Comm_compare(inter, inter, &result);
    CHECK(result == MPI_IDENT);
    MPI_Comm_compare(inter, half, &result);
    CHECK(result == MPI_UNEQUAL);
    MPI_Topo_test(inter, &result);
    CHECK(result == MPI_UNDEFINED);
}

/* Each sends to each of the other group: ranks are those of the other group, in statuses too. */
static void check_messages(MPI_Comm inter) {
    MPI_Request *requests = calloc((size_t)other_size, sizeof *requests);
    int *got = calloc((size_t)other_size, sizeof *got);
    MPI_Status status;
    for (int to = 0; to < other_size; to++) MPI_Isend(&test_rank, 1, MPI_INT, to, own_rank, inter, &requests[to]);
    for (int from = other_size - 1; from >= 0; from--) {
        MPI_Recv(&got[from], 1, MPI_INT, from, MPI_ANY_TAG, inter, &status);
        CHECK(got[from] == other_of(from) && status.MPI_SOURCE == from && status.MPI_TAG == from);
    }
    MPI_Waitall(other_size, requests, MPI_STATUSES_IGNORE);
    free(requests);
    free(got);
}

/* The first ranks of both: all kinds of sends and receives. */
static void check_kinds(MPI_Comm inter) {
    MPI_Status status;
    MPI_Message message;
    MPI_Request request;
    int rows[400], got[400] = {0}, count = -1;
    if (own_rank != 0) return;
    fill(rows, sizeof rows, is_upper ? 1 : 2);
    MPI_Isend(rows, 400, MPI_INT, 0, 6, inter, &request);
    MPI_Mprobe(MPI_ANY_SOURCE, 6, inter, &message, &status);
    MPI_Get_count(&status, MPI_INT, &count);
    CHECK(status.MPI_SOURCE == 0 && count == 400);
    MPI_Mrecv(got, 400, MPI_INT, &message, &status);
    CHECK(status.MPI_SOURCE == 0 && is_filled(got, sizeof got, is_upper ? 2 : 1));
    MPI_Wait(&request, MPI_STATUS_IGNORE);
    MPI_Irecv(got, 400, MPI_INT, MPI_ANY_SOURCE, MPI_ANY_TAG, inter, &request);
    MPI_Ssend(rows, 3, MPI_INT, 0, 8, inter);
    MPI_Wait(&request, &status);
    MPI_Get_count(&status, MPI_INT, &count);
    CHECK(status.MPI_SOURCE == 0 && status.MPI_TAG == 8 && count == 3);
    MPI_Sendrecv(rows, 1, MPI_INT, 0, 1, got, 1, MPI_INT, 0, 1, inter, &status);
    CHECK(status.MPI_SOURCE == 0 && is_filled(got, sizeof *got, is_upper ? 2 : 1));
    MPI_Send(rows, 1, MPI_INT, MPI_PROC_NULL, 1, inter);
    MPI_Recv(got, 1, MPI_INT, MPI_PROC_NULL, 1, inter, &status);
    CHECK(status.MPI_SOURCE == MPI_PROC_NULL);
    MPI_Send_init(rows, 1, MPI_INT, 0, 2, inter, &request);
    MPI_Start(&request);
    MPI_Probe(MPI_ANY_SOURCE, 2, inter, &status);
    CHECK(status.MPI_SOURCE == 0);
    MPI_Recv(got, 1, MPI_INT, 0, 2, inter, &status);
    MPI_Wait(&request, MPI_STATUS_IGNORE);
    MPI_Request_free(&request);
}

static void check_merge(MPI_Comm inter) {
    MPI_Comm merged;
    int rank = -1, size = -1, flag = 1, sum = 0, first = -1;
    for (int turn = 0; turn < 3; turn++) {
        const bool is_high = turn == 0 ? is_upper : turn == 1 ? !is_upper : false;
        MPI_Intercomm_merge(inter, is_high, &merged);
        MPI_Comm_rank(merged, &rank);
        MPI_Comm_size(merged, &size);
        MPI_Comm_test_inter(merged, &flag);
        CHECK(size == test_size && !flag);
        if (turn < 2) CHECK(rank == (is_high ? other_size : 0) + own_rank);
        /* In any case each group has its order, and one comes behind the other. */
        MPI_Allreduce(&test_rank, &sum, 1, MPI_INT, MPI_SUM, merged);
        CHECK(sum == test_size * (test_size - 1) / 2);
        MPI_Allreduce(&rank, &first, 1, MPI_INT, MPI_MIN, half);
        CHECK(rank == first + own_rank);
        MPI_Comm_free(&merged);
    }
}

/* Copies and parts of an intercommunicator are intercommunicators. */
static void check_copies(MPI_Comm inter) {
    MPI_Comm copy, later;
    MPI_Request request;
    int result = -1;
    MPI_Comm_dup(inter, &copy);
    check_facts(copy);
    check_messages(copy);
    MPI_Comm_idup(copy, &later, &request);
    MPI_Wait(&request, MPI_STATUS_IGNORE);
    check_facts(later);
    check_messages(later);
    MPI_Comm_compare(inter, later, &result);
    CHECK(result == MPI_CONGRUENT);
    MPI_Comm_free(&copy);
    MPI_Comm_disconnect(&later);
}

static void check_parts(MPI_Comm inter) {
    MPI_Comm part;
    MPI_Group all, some;
    int result = -1, size = -1;
    /* Those with an even rank, in the other order: first of each group alone. */
    MPI_Comm_split(inter, own_rank % 2 == 0 ? 3 : MPI_UNDEFINED, -own_rank, &part);
    if (own_rank % 2 == 0) {
        MPI_Comm_remote_size(part, &size);
        CHECK(size == (other_size + 1) / 2);
        MPI_Comm_size(part, &size);
        CHECK(size == (own_size + 1) / 2);
        MPI_Comm_rank(part, &result);
        CHECK(result == size - 1 - own_rank / 2);
        MPI_Comm_compare(part, inter, &result);
        CHECK(result == (own_size == 1 && other_size == 1 ? MPI_CONGRUENT : MPI_UNEQUAL));
        MPI_Comm_free(&part);
    } else CHECK(part == MPI_COMM_NULL);
    /* A colour of one group alone makes none. */
    MPI_Comm_split(inter, is_upper, 0, &part);
    CHECK(part == MPI_COMM_NULL);
    MPI_Comm_group(inter, &all);
    const int first[1] = {0};
    MPI_Group_incl(all, 1, first, &some);
    MPI_Comm_create(inter, some, &part);
    if (own_rank == 0) {
        MPI_Comm_remote_size(part, &size);
        CHECK(size == 1);
        MPI_Barrier(part);
        MPI_Comm_free(&part);
    } else CHECK(part == MPI_COMM_NULL);
    MPI_Comm_create(inter, is_upper ? MPI_GROUP_EMPTY : all, &part);
    CHECK(part == MPI_COMM_NULL);
    MPI_Group_free(&all);
    MPI_Group_free(&some);
}

/* Of the first members alone, who know one another in an intercommunicator: ranks of the peer are those of its other
 * group. */
static void check_peer(MPI_Comm inter) {
    MPI_Comm first = MPI_COMM_NULL, second;
    int size = 0, got = -1;
    MPI_Comm_split(half, own_rank == 0 ? 0 : MPI_UNDEFINED, 0, &first);
    if (own_rank != 0) return;
    MPI_Intercomm_create(first, 0, inter, 0, 40000, &second);
    MPI_Comm_remote_size(second, &size);
    CHECK(size == 1);
    MPI_Sendrecv(&test_rank, 1, MPI_INT, 0, 0, &got, 1, MPI_INT, 0, 0, second, MPI_STATUS_IGNORE);
    CHECK(got == other_of(0));
    MPI_Comm_free(&first);
    MPI_Comm_free(&second);
}

static void check_errors(MPI_Comm inter) {
    MPI_Comm made = MPI_COMM_NULL;
    int size, value = 0;
    return_errors();
    MPI_Comm_set_errhandler(half, MPI_ERRORS_RETURN);
    MPI_Comm_set_errhandler(inter, MPI_ERRORS_RETURN);
    CHECK(class_of(MPI_Comm_remote_size(half, &size)) == MPI_ERR_COMM);
    CHECK(class_of(MPI_Intercomm_merge(half, 0, &made)) == MPI_ERR_COMM);
    CHECK(class_of(MPI_Intercomm_create(inter, 0, MPI_COMM_WORLD, 0, 0, &made)) == MPI_ERR_COMM);
    CHECK(class_of(MPI_Intercomm_create(half, own_size, MPI_COMM_WORLD, other_first, 0, &made)) == MPI_ERR_ROOT);
    CHECK(class_of(MPI_Send(&value, 1, MPI_INT, other_size, 0, inter)) == MPI_ERR_RANK);
    CHECK(class_of(MPI_Bcast(&value, 1, MPI_INT, other_size, inter)) == MPI_ERR_ROOT);
    CHECK(class_of(MPI_Scan(&value, &size, 1, MPI_INT, MPI_SUM, inter)) == MPI_ERR_COMM);
    CHECK(class_of(MPI_Cart_create(inter, 1, &own_size, &size, 0, &made)) == MPI_ERR_COMM);
    /* All members of a group learn that there is none: its leader's peer is no rank, or is in the same group. */
    int class = class_of(MPI_Intercomm_create(half, 0, MPI_COMM_WORLD, test_size, 0, &made));
    CHECK(class == (own_rank == 0 ? MPI_ERR_RANK : MPI_ERR_COMM) && made == MPI_COMM_NULL);
    class = class_of(MPI_Intercomm_create(half, 0, half, 0, 0, &made));
    CHECK(class == MPI_ERR_COMM && made == MPI_COMM_NULL);
}

int main(int argc, char **argv) {
    test_begin(&argc, &argv);
    open_halves();
    MPI_Comm inter = pair(0);
    check_facts(inter);
    check_messages(inter);
    check_kinds(inter);
    check_merge(inter);
    check_copies(inter);
    check_parts(inter);
    check_peer(inter);
    for (int turn = 0; turn < 20; turn++) {
        MPI_Comm again = pair(turn);
        check_messages(again);
        MPI_Comm_free(&again);
        CHECK(again == MPI_COMM_NULL);
    }
    check_errors(inter);
    MPI_Comm_free(&inter);
    MPI_Comm_free(&half);
    return test_end();
}
