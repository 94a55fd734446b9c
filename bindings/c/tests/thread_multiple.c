/* Several threads speak MPI at the same time (MPI 3.1, 12.4.1, MPI_THREAD_MULTIPLE): a call that waits lets others go
 * on. */
#define _GNU_SOURCE
#include "test.h"

#include <pthread.h>
#include <unistd.h>

enum { THREADS = 4, ROUNDS = 40, LONG = 5000, DUPS = 6, TURNS = 200 };

/* What a thread is given: its number, and a communicator of its own. */
struct own {
    int number;
    MPI_Comm comm;
    int errors;
};
static _Thread_local int errors;
#define HOLDS(condition)                                                                                               \
    ((condition) ? 0 : (errors++, fprintf(stderr, "%s:%d: not so: %s\n", __FILE__, __LINE__, #condition)))

/* Runs so many threads, each with its number and its communicator, and waits for them. */
static void run(void *(*what)(void *), const MPI_Comm comms[], int count) {
    pthread_t threads[THREADS];
    struct own own[THREADS];
    for (int i = 0; i < count; i++) {
        own[i] = (struct own){i, comms == NULL ? MPI_COMM_WORLD : comms[i], 0};
        pthread_create(&threads[i], NULL, what, &own[i]);
    }
    for (int i = 0; i < count; i++) {
        pthread_join(threads[i], NULL);
        test_errors += own[i].errors;
    }
}

/* Each thread exchanges with the same one of the next rank, in one communicator: short and long messages, in all ways.
 */
static void *exchange(void *given) {
    struct own *own = given;
    int next = (test_rank + 1) % test_size, last = (test_rank + test_size - 1) % test_size;
    int *out = calloc(LONG, sizeof *out), *in = calloc(LONG, sizeof *in), flag = 0;
    MPI_Status status;
    for (int round = 0; round < ROUNDS; round++) {
        const int tag = 100 * own->number + round, count = round % 4 == 0 ? LONG : 1 + round;
        MPI_Request requests[2];
        out[0] = 1000 * test_rank + tag, out[count - 1] = tag;
        MPI_Irecv(in, LONG, MPI_INT, last, tag, own->comm, &requests[0]);
        MPI_Isend(out, count, MPI_INT, next, tag, own->comm, &requests[1]);
        if (round % 3 == 0) MPI_Wait(&requests[0], &status);
        if (round % 3 == 1)
            for (flag = 0; !flag;) MPI_Test(&requests[0], &flag, &status);
        if (round % 3 == 2) {
            int index = -1;
            MPI_Waitany(1, requests, &index, &status);
        }
        MPI_Wait(&requests[1], MPI_STATUS_IGNORE);
        HOLDS(status.MPI_SOURCE == last && status.MPI_TAG == tag && in[count - 1] == (count == 1 ? in[0] : tag));
        HOLDS(count == 1 || in[0] == 1000 * last + tag);
    }
    free(out);
    free(in);
    own->errors = errors;
    return NULL;
}

/* Of the threads of a rank each takes out what it finds: each message is received once, whole, by one of them. */
static int taken[THREADS * ROUNDS];
static void *take_out(void *given) {
    struct own *own = given;
    for (int i = 0; i < ROUNDS; i++) {
        MPI_Message message;
        MPI_Status status;
        int count = 0, row[ROUNDS + 1];
        MPI_Mprobe(MPI_ANY_SOURCE, 1, own->comm, &message, &status);
        MPI_Get_count(&status, MPI_INT, &count);
        HOLDS(count >= 1 && count <= ROUNDS);
        MPI_Mrecv(row, count, MPI_INT, &message, MPI_STATUS_IGNORE);
        HOLDS(row[0] >= 0 && row[0] < THREADS * ROUNDS && (count == 1 || row[count - 1] == -row[0]));
        __atomic_add_fetch(&taken[row[0]], 1, __ATOMIC_SEQ_CST);
    }
    own->errors = errors;
    return NULL;
}
static void *hand_out(void *given) {
    struct own *own = given;
    for (int i = 0; i < ROUNDS; i++) {
        int row[ROUNDS] = {0}, count = 1 + (i + own->number) % (ROUNDS - 1);
        row[count - 1] = -(ROUNDS * own->number + i);
        row[0] = ROUNDS * own->number + i;
        MPI_Send(row, count, MPI_INT, 0, 1, own->comm);
    }
    return NULL;
}
static void check_probes(void) {
    if (test_rank == 0) run(take_out, NULL, THREADS);
    if (test_rank == 1) run(hand_out, NULL, THREADS);
    for (int i = 0; i < THREADS * ROUNDS && test_rank == 0; i++) CHECK(taken[i] == 1);
}

/* Each thread has a communicator, copies it, and speaks in collectives there, in an order of its own at each rank. */
static void *collectives(void *given) {
    struct own *own = given;
    for (int round = 0; round < DUPS; round++) {
        MPI_Comm copy, part;
        int sum = 0, number = own->number + test_rank, root = round % test_size, from_root = -1, size = 0;
        if ((own->number + test_rank + round) % 3 == 0) usleep(300);
        MPI_Comm_dup(own->comm, &copy);
        MPI_Allreduce(&number, &sum, 1, MPI_INT, MPI_SUM, copy);
        HOLDS(sum == test_size * own->number + test_size * (test_size - 1) / 2);
        MPI_Barrier(own->comm);
        if (test_rank == root) from_root = 10 * own->number + round;
        MPI_Bcast(&from_root, 1, MPI_INT, root, copy);
        HOLDS(from_root == 10 * own->number + round);
        MPI_Comm_split(copy, test_rank % 2, -test_rank, &part);
        MPI_Comm_size(part, &size);
        MPI_Allreduce(&number, &sum, 1, MPI_INT, MPI_MIN, part);
        HOLDS(sum == own->number + test_rank % 2 && size == (test_size + 1 - test_rank % 2) / 2);
        MPI_Comm_free(&part);
        MPI_Comm_free(&copy);
    }
    own->errors = errors;
    return NULL;
}

/* A thread in a collective, or in a receive, waits for what another thread of the same rank does later. */
static void *late_partner(void *given) {
    struct own *own = given;
    int number = 0;
    if (own->number == 0) {
        /* Rank 0 comes to the barrier once its other thread has received; the others come at once. */
        if (test_rank == 0) MPI_Recv(&number, 1, MPI_INT, 0, 7, MPI_COMM_SELF, MPI_STATUS_IGNORE);
        MPI_Barrier(own->comm);
        return NULL;
    }
    if (test_rank == 0) {
        MPI_Recv(&number, 1, MPI_INT, 1, 8, MPI_COMM_WORLD, MPI_STATUS_IGNORE);
        HOLDS(number == 5);
        MPI_Ssend(&number, 1, MPI_INT, 0, 7, MPI_COMM_SELF);
    }
    if (test_rank == 1) {
        usleep(20000);
        number = 5;
        MPI_Ssend(&number, 1, MPI_INT, 0, 8, MPI_COMM_WORLD);
    }
    own->errors = errors;
    return NULL;
}

/* A rank may be both sides of a message by two of its threads. */
static void *both_sides(void *given) {
    struct own *own = given;
    int *row = calloc(LONG, sizeof *row);
    for (int round = 0; round < ROUNDS; round++) {
        row[LONG - 1] = round;
        if (own->number == 0) MPI_Send(row, LONG, MPI_INT, test_rank, 3, MPI_COMM_WORLD);
        else MPI_Recv(row, LONG, MPI_INT, MPI_ANY_SOURCE, 3, MPI_COMM_WORLD, MPI_STATUS_IGNORE);
        HOLDS(row[LONG - 1] == round);
    }
    free(row);
    own->errors = errors;
    return NULL;
}

/* Two threads of a rank in turn: each is woken by what the other one does, and not by a message that comes. */
static void *in_turn(void *given) {
    struct own *own = given;
    int number = -1;
    for (int round = 0; round < TURNS; round++) {
        if (own->number == 0) MPI_Ssend(&round, 1, MPI_INT, 0, 0, MPI_COMM_SELF);
        MPI_Recv(&number, 1, MPI_INT, 0, 1 - own->number, MPI_COMM_SELF, MPI_STATUS_IGNORE);
        if (own->number == 1) MPI_Ssend(&round, 1, MPI_INT, 0, 1, MPI_COMM_SELF);
        HOLDS(number == round);
    }
    own->errors = errors;
    return NULL;
}

/* A function of the program, which asks about its type (5.9.5). */
static void add_items(void *low, void *high, int *count, MPI_Datatype *type) {
    MPI_Aint lower = -1, extent = -1;
    int size = -1;
    MPI_Type_size(*type, &size);
    MPI_Type_get_extent(*type, &lower, &extent);
    HOLDS(size == (int)sizeof(int) && lower == 0 && extent == (MPI_Aint)sizeof(int));
    for (int at = 0; at < *count; at++) ((int *)high)[at] += ((int *)low)[at];
}

/* Each thread reduces by it in its communicator, while the others do. */
static void *reduce_by_own(void *given) {
    struct own *own = given;
    MPI_Request request;
    MPI_Op op;
    MPI_Op_create(add_items, 1, &op);
    for (int turn = 0; turn < 20; turn++) {
        int number = turn + test_rank, all = -1, later = -1;
        MPI_Iallreduce(&number, &later, 1, MPI_INT, op, own->comm, &request);
        MPI_Wait(&request, MPI_STATUS_IGNORE);
        MPI_Allreduce(&number, &all, 1, MPI_INT, op, own->comm);
        HOLDS(all == test_size * turn + test_size * (test_size - 1) / 2 && later == all);
    }
    MPI_Op_free(&op);
    own->errors = errors;
    return NULL;
}

int main(int argc, char **argv) {
    int level = -1, is_main = 0;
    MPI_Comm comms[THREADS];
    MPI_Init_thread(&argc, &argv, MPI_THREAD_MULTIPLE, &level);
    MPI_Comm_rank(MPI_COMM_WORLD, &test_rank);
    MPI_Comm_size(MPI_COMM_WORLD, &test_size);
    CHECK(level == MPI_THREAD_MULTIPLE);
    MPI_Query_thread(&level);
    MPI_Is_thread_main(&is_main);
    CHECK(level == MPI_THREAD_MULTIPLE && is_main);
    run(exchange, NULL, THREADS);
    check_probes();
    run(both_sides, NULL, 2);
    run(in_turn, NULL, 2);
    for (int i = 0; i < THREADS; i++) MPI_Comm_dup(MPI_COMM_WORLD, &comms[i]);
    run(late_partner, comms, 2);
    run(collectives, comms, THREADS);
    run(reduce_by_own, comms, THREADS);
    for (int i = 0; i < THREADS; i++) MPI_Comm_free(&comms[i]);
    return test_end();
}
