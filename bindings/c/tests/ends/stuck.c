/* Waits that never end, of two ranks or more: each is to say what it waits for. Its word says which. */
#define _GNU_SOURCE
#include <mpi.h>

#include <stdio.h>
#include <stdlib.h>
#include <string.h>
#include <threads.h>
#include <unistd.h>

static int rank, size, other;
static int row[20000]; /* more than one frame takes */
static const MPI_Comm world_of_none = MPI_COMM_NULL;

static void begin_lists(const char *what) {
    MPI_Request requests[6];
    for (int i = 0; i < 6; i++) MPI_Irecv(&row[i], 1, MPI_INT, other, i, MPI_COMM_WORLD, &requests[i]);
    if (strcmp(what, "all") == 0) {
        MPI_Send(&row[0], 1, MPI_INT, other, 1, MPI_COMM_WORLD);
        MPI_Waitall(6, requests, MPI_STATUSES_IGNORE);
    }
    int index;
    if (strcmp(what, "any") == 0) MPI_Waitany(2, requests, &index, MPI_STATUS_IGNORE);
    if (strcmp(what, "one") == 0) MPI_Wait(&requests[3], MPI_STATUS_IGNORE);
}

/* Waits of requests that are begun in two steps. */
static void begin_persistent(void) {
    MPI_Request request;
    MPI_Recv_init(row, 1, MPI_INT, other, 8, MPI_COMM_WORLD, &request);
    MPI_Start(&request);
    MPI_Wait(&request, MPI_STATUS_IGNORE);
}
static void fill_buffer(void) {
    static char room[sizeof row + MPI_BSEND_OVERHEAD];
    void *at;
    int bytes;
    MPI_Buffer_attach(room, sizeof room);
    MPI_Bsend(row, 20000, MPI_INT, other, 0, MPI_COMM_WORLD);
    MPI_Buffer_detach(&at, &bytes);
}

/* The ranks in the opposite order: the other one has another number here. */
static void begin_in_part(const char *what) {
    MPI_Comm turned = world_of_none;
    MPI_Comm_split(MPI_COMM_WORLD, 0, size - rank, &turned);
    if (strcmp(what, "named") == 0) MPI_Comm_set_name(turned, "turned\n");
    MPI_Recv(row, 1, MPI_INT, rank == 0 ? 0 : size - 1, MPI_ANY_TAG, turned, MPI_STATUS_IGNORE);
}

/* Two threads of a rank wait for the same. */
static int receive(void *nothing) {
    (void)nothing;
    return MPI_Recv(row, 1, MPI_INT, other, 5, MPI_COMM_WORLD, MPI_STATUS_IGNORE);
}
static void wait_in_threads(void) {
    thrd_t thread;
    if (thrd_create(&thread, receive, NULL) == thrd_success) receive(NULL);
}

/* Communicators that a group makes alone, and two groups. */
static MPI_Comm pair_up(int remote_leader) {
    MPI_Comm own, pair = world_of_none;
    MPI_Comm_dup(MPI_COMM_SELF, &own);
    MPI_Intercomm_create(own, 0, MPI_COMM_WORLD, remote_leader, 7, &pair);
    return pair;
}
static void make_of_group(const char *what) {
    MPI_Group all;
    MPI_Comm made = world_of_none;
    MPI_Request request;
    MPI_Comm_group(MPI_COMM_WORLD, &all);
    if (strcmp(what, "entered") == 0 && rank == 1) MPI_Comm_create_group(MPI_COMM_WORLD, all, 3, &made);
    if (strcmp(what, "copied") == 0 && rank == 1) {
        MPI_Comm_idup(MPI_COMM_WORLD, &made, &request);
        MPI_Wait(&request, MPI_STATUS_IGNORE);
    }
    if (strcmp(what, "alone") == 0) {
        MPI_Comm_create_group(MPI_COMM_WORLD, all, 3, &made);
        MPI_Recv(row, 1, MPI_INT, other, 2, made, MPI_STATUS_IGNORE);
    }
    if (strcmp(what, "leader") == 0 && rank == 0) (void)pair_up(1);
    if (strcmp(what, "paired") == 0) MPI_Recv(row, 1, MPI_INT, 0, 2, pair_up(other), MPI_STATUS_IGNORE);
    if (strcmp(what, "entry") == 0) {
        made = pair_up(other);
        MPI_Comm_set_name(made, "pair");
        if (rank == 0) MPI_Barrier(made);
    }
    MPI_Recv(row, 1, MPI_INT, other, 1, MPI_COMM_WORLD, MPI_STATUS_IGNORE);
}

/* More than may wait unasked. */
static void send_too_much(void) {
    MPI_Send(row, 936, MPI_BYTE, other, 0, MPI_COMM_WORLD);
    MPI_Send(row, 1, MPI_INT, other, 0, MPI_COMM_WORLD);
}

static void wait_for_ever(const char *what) {
    MPI_Status status;
    MPI_Message message;
    if (strcmp(what, "receive") == 0) MPI_Recv(row, 1, MPI_INT, other, 5, MPI_COMM_WORLD, &status);
    if (strcmp(what, "any_source") == 0) MPI_Recv(row, 1, MPI_INT, MPI_ANY_SOURCE, 5, MPI_COMM_WORLD, &status);
    if (strcmp(what, "send") == 0) MPI_Send(row, 20000, MPI_INT, other, 0, MPI_COMM_WORLD);
    if (strcmp(what, "small_send") == 0) MPI_Send(row, 1, MPI_INT, other, 0, MPI_COMM_WORLD);
    if (strcmp(what, "crowded") == 0) send_too_much();
    if (strcmp(what, "synchronous") == 0) MPI_Ssend(row, 1, MPI_INT, other, 0, MPI_COMM_WORLD);
    if (strcmp(what, "started") == 0) begin_persistent();
    if (strcmp(what, "threads") == 0) wait_in_threads();
    if (strcmp(what, "detach") == 0) fill_buffer();
    if (strcmp(what, "probe") == 0) MPI_Probe(other, 5, MPI_COMM_WORLD, &status);
    if (strcmp(what, "matched_probe") == 0) MPI_Mprobe(other, 5, MPI_COMM_WORLD, &message, &status);
    if (strcmp(what, "barrier") == 0 && rank == 0) MPI_Barrier(MPI_COMM_WORLD);
    if (strcmp(what, "broadcast") == 0 && rank == 0) MPI_Bcast(row, 1, MPI_INT, 1, MPI_COMM_WORLD);
    if (strcmp(what, "split") == 0 && rank == 0) MPI_Comm_dup(MPI_COMM_WORLD, &(MPI_Comm){MPI_COMM_NULL});
    if (strcmp(what, "computes") == 0 && rank == 1) pause();
    if (strcmp(what, "quits") == 0 && rank == 1) _exit(0);
    if (strcmp(what, "quits_first") == 0 && rank == 0) _exit(0);
    if (strncmp(what, "quits", 5) == 0) MPI_Recv(row, 1, MPI_INT, other, 5, MPI_COMM_WORLD, &status);
}

int main(int argc, char **argv) {
    const char *what = argc > 1 ? argv[1] : "";
    int level;
    if (strcmp(what, "crowded") == 0) setenv("KOMBAZILY_UNASKED", "1000", 1);
    MPI_Init_thread(&argc, &argv, strcmp(what, "threads") == 0 ? MPI_THREAD_MULTIPLE : MPI_THREAD_SINGLE, &level);
    MPI_Comm_rank(MPI_COMM_WORLD, &rank);
    MPI_Comm_size(MPI_COMM_WORLD, &size);
    other = (rank + 1) % size;
    printf("rank %d begins\n", rank);
    if (strcmp(what, "all") == 0 || strcmp(what, "any") == 0 || strcmp(what, "one") == 0) begin_lists(what);
    else if (strcmp(what, "part") == 0 || strcmp(what, "named") == 0) begin_in_part(what);
    else if (strncmp(what, "group_", 6) == 0) make_of_group(what + 6);
    else wait_for_ever(what);
    if (strcmp(what, "small_send") == 0) MPI_Recv(row, 1, MPI_INT, other, 0, MPI_COMM_WORLD, MPI_STATUS_IGNORE);
    if (strcmp(what, "barrier") == 0 || strcmp(what, "broadcast") == 0 || strcmp(what, "split") == 0)
        MPI_Recv(row, 1, MPI_INT, 0, 1, MPI_COMM_WORLD, MPI_STATUS_IGNORE);
    MPI_Finalize();
    return 0;
}
