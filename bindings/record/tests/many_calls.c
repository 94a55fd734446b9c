/* Right: calls of nearly all kinds that a record has, each by all ranks of four. */
#include <mpi.h>
#include <stdio.h>
#include <stdlib.h>

static int me, size;

static void messages(void) {
    int next = (me + 1) % size, before = (me + size - 1) % size, out = me, in = -1, flag = 0;
    MPI_Request requests[4];
    MPI_Status status;
    MPI_Sendrecv(&out, 1, MPI_INT, next, 1, &in, 1, MPI_INT, before, 1, MPI_COMM_WORLD, &status);
    MPI_Sendrecv_replace(&out, 1, MPI_INT, next, 2, before, 2, MPI_COMM_WORLD, MPI_STATUS_IGNORE);
    MPI_Irecv(&in, 1, MPI_INT, before, 3, MPI_COMM_WORLD, &requests[0]);
    MPI_Issend(&out, 1, MPI_INT, next, 3, MPI_COMM_WORLD, &requests[1]);
    while (!flag) MPI_Testall(2, requests, &flag, MPI_STATUSES_IGNORE);
    MPI_Irecv(&in, 1, MPI_INT, MPI_PROC_NULL, 3, MPI_COMM_WORLD, &requests[0]);
    MPI_Wait(&requests[0], &status);
    MPI_Recv_init(&in, 1, MPI_INT, before, 4, MPI_COMM_WORLD, &requests[0]);
    MPI_Send_init(&out, 1, MPI_INT, next, 4, MPI_COMM_WORLD, &requests[1]);
    for (int i = 0; i < 3; i++) {
        MPI_Startall(2, requests);
        MPI_Waitall(2, requests, MPI_STATUSES_IGNORE);
    }
    MPI_Request_free(&requests[0]);
    MPI_Request_free(&requests[1]);
    MPI_Irecv(&in, 1, MPI_INT, before, 77, MPI_COMM_WORLD, &requests[0]);
    MPI_Cancel(&requests[0]);
    MPI_Wait(&requests[0], &status);
}

static void buffered(void) {
    int next = (me + 1) % size, before = (me + size - 1) % size, in, length;
    char room[1000 + MPI_BSEND_OVERHEAD], *old;
    MPI_Buffer_attach(room, sizeof room);
    MPI_Bsend(&me, 1, MPI_INT, next, 5, MPI_COMM_WORLD);
    MPI_Recv(&in, 1, MPI_INT, before, 5, MPI_COMM_WORLD, MPI_STATUS_IGNORE);
    MPI_Buffer_detach(&old, &length);
}

static void probes(void) {
    MPI_Status status;
    MPI_Message message;
    int count, flag = 0, row[8] = {0};
    if (me != 0) {
        MPI_Send(row, me, MPI_INT, 0, 6, MPI_COMM_WORLD);
        MPI_Send(row, me, MPI_INT, 0, 7, MPI_COMM_WORLD);
    }
    for (int i = 1; me == 0 && i < size; i++) {
        MPI_Probe(MPI_ANY_SOURCE, 6, MPI_COMM_WORLD, &status);
        MPI_Get_count(&status, MPI_INT, &count);
        MPI_Recv(row, count, MPI_INT, status.MPI_SOURCE, 6, MPI_COMM_WORLD, MPI_STATUS_IGNORE);
    }
    for (int i = 1; me == 0 && i < size; i++) {
        for (flag = 0; !flag;) MPI_Improbe(i, 7, MPI_COMM_WORLD, &flag, &message, &status);
        MPI_Get_count(&status, MPI_INT, &count);
        MPI_Mrecv(row, count, MPI_INT, &message, MPI_STATUS_IGNORE);
    }
}

static void lists(void) {
    int places[8], found, done = 0, in[8], place;
    MPI_Request requests[8];
    for (int i = 1; me == 0 && i < size; i++) MPI_Irecv(&in[i], 1, MPI_INT, i, 8, MPI_COMM_WORLD, &requests[i - 1]);
    while (me == 0 && done < size - 1) {
        MPI_Waitsome(size - 1, requests, &found, places, MPI_STATUSES_IGNORE);
        done += found;
    }
    if (me != 0) MPI_Send(&me, 1, MPI_INT, 0, 8, MPI_COMM_WORLD);
    for (int i = 1; me == 0 && i < size; i++)
        MPI_Irecv(&in[i], 1, MPI_INT, MPI_ANY_SOURCE, 9, MPI_COMM_WORLD, &requests[i - 1]);
    for (int i = 1; me == 0 && i < size; i++) MPI_Waitany(size - 1, requests, &place, MPI_STATUS_IGNORE);
    if (me != 0) MPI_Send(&me, 1, MPI_INT, 0, 9, MPI_COMM_WORLD);
}

static void types(void) {
    struct part {
        double x;
        int number[2];
    } own = {me, {me, me}}, other;
    int lengths[2] = {1, 2}, next = (me + 1) % size, before = (me + size - 1) % size;
    MPI_Aint places[2] = {0, sizeof(double)};
    MPI_Datatype parts[2] = {MPI_DOUBLE, MPI_INT}, made, row;
    double field[6] = {me, 1, 2, 3, 4, 5}, column[6];
    MPI_Type_create_struct(2, lengths, places, parts, &made);
    MPI_Type_commit(&made);
    MPI_Sendrecv(&own, 1, made, next, 10, &other, 1, made, before, 10, MPI_COMM_WORLD, MPI_STATUS_IGNORE);
    MPI_Type_vector(3, 1, 2, MPI_DOUBLE, &row);
    MPI_Type_commit(&row);
    MPI_Sendrecv(field, 1, row, next, 11, column, 3, MPI_DOUBLE, before, 11, MPI_COMM_WORLD, MPI_STATUS_IGNORE);
    MPI_Bcast(&own, 1, made, 0, MPI_COMM_WORLD);
    MPI_Type_free(&made);
    MPI_Type_free(&row);
}

static void add(void *in, void *inout, int *count, MPI_Datatype *type) {
    (void)type;
    for (int i = 0; i < *count; i++) ((int *)inout)[i] += ((int *)in)[i];
}

static void collectives(MPI_Comm comm) {
    int rank, all, own[16] = {0}, row[64], counts[16], places[16];
    MPI_Op op;
    MPI_Comm_rank(comm, &rank);
    MPI_Comm_size(comm, &all);
    for (int i = 0; i < all; i++) counts[i] = i + 1, places[i] = i * (i + 1) / 2;
    MPI_Op_create(add, 1, &op);
    MPI_Barrier(comm);
    MPI_Gather(own, 2, MPI_INT, row, 2, MPI_INT, 0, comm);
    MPI_Gatherv(own, rank + 1, MPI_INT, row, counts, places, MPI_INT, 0, comm);
    MPI_Scatter(row, 2, MPI_INT, own, 2, MPI_INT, 0, comm);
    MPI_Scatterv(row, counts, places, MPI_INT, own, rank + 1, MPI_INT, 0, comm);
    MPI_Allgather(own, 1, MPI_INT, row, 1, MPI_INT, comm);
    MPI_Allgatherv(own, rank + 1, MPI_INT, row, counts, places, MPI_INT, comm);
    MPI_Alltoall(own, 1, MPI_INT, row, 1, MPI_INT, comm);
    for (int i = 0; i < all; i++) counts[i] = 1, places[i] = i;
    MPI_Alltoallv(own, counts, places, MPI_INT, row, counts, places, MPI_INT, comm);
    MPI_Reduce(rank == 0 ? MPI_IN_PLACE : own, own, 2, MPI_INT, MPI_SUM, 0, comm);
    MPI_Allreduce(MPI_IN_PLACE, own, 2, MPI_INT, op, comm);
    MPI_Scan(own, row, 1, MPI_INT, MPI_MAX, comm);
    MPI_Exscan(own, row, 1, MPI_INT, MPI_MAX, comm);
    MPI_Reduce_scatter_block(own, row, 1, MPI_INT, MPI_SUM, comm);
    MPI_Reduce_scatter(own, row, counts, MPI_INT, MPI_SUM, comm);
    MPI_Op_free(&op);
}

static void communicators(void) {
    MPI_Comm half, twin, grid, line;
    MPI_Group group, part;
    int sizes[2] = {2, 2}, periods[2] = {0, 0}, keeps[2] = {1, 0}, first[2] = {0, 1};
    MPI_Comm_split(MPI_COMM_WORLD, me % 2, -me, &half);
    collectives(half);
    MPI_Comm_dup(half, &twin);
    MPI_Comm_free(&half);
    MPI_Barrier(twin);
    MPI_Comm_free(&twin);
    MPI_Cart_create(MPI_COMM_WORLD, 2, sizes, periods, 0, &grid);
    MPI_Cart_sub(grid, keeps, &line);
    MPI_Barrier(line);
    MPI_Comm_free(&line);
    MPI_Comm_free(&grid);
    MPI_Comm_group(MPI_COMM_WORLD, &group);
    MPI_Group_incl(group, 2, first, &part);
    MPI_Comm_create(MPI_COMM_WORLD, part, &half);
    if (half != MPI_COMM_NULL) {
        MPI_Barrier(half);
        MPI_Comm_free(&half);
    }
    MPI_Group_free(&group);
    MPI_Group_free(&part);
}

static void without_waiting(void) {
    int own = me, sum, in = 0;
    MPI_Request requests[3];
    MPI_Ibarrier(MPI_COMM_WORLD, &requests[0]);
    MPI_Iallreduce(&own, &sum, 1, MPI_INT, MPI_SUM, MPI_COMM_WORLD, &requests[1]);
    MPI_Ibcast(&in, 1, MPI_INT, 1, MPI_COMM_WORLD, &requests[2]);
    MPI_Waitall(3, requests, MPI_STATUSES_IGNORE);
    MPI_Ireduce(&own, &sum, 1, MPI_INT, MPI_SUM, 2, MPI_COMM_WORLD, &requests[0]);
    MPI_Wait(&requests[0], MPI_STATUS_IGNORE);
}

int main(int argc, char **argv) {
    MPI_Init(&argc, &argv);
    MPI_Comm_rank(MPI_COMM_WORLD, &me);
    MPI_Comm_size(MPI_COMM_WORLD, &size);
    messages();
    buffered();
    probes();
    MPI_Barrier(MPI_COMM_WORLD);
    lists();
    types();
    collectives(MPI_COMM_WORLD);
    communicators();
    without_waiting();
    MPI_Finalize();
    return 0;
}
