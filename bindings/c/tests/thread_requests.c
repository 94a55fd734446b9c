/* Requests of all kinds, of several threads at the same time (MPI 3.1, 12.4, 12.2): each is ended by the thread that
 * waits for it, whichever thread goes on with it. */
#define _GNU_SOURCE
#include "test.h"

#include <pthread.h>
#include <unistd.h>

enum { THREADS = 3, ROUNDS = 30, MANY = 5, LONG = 3000 };

static _Thread_local int errors;
#define HOLDS(condition)                                                                                               \
    ((condition) ? 0 : (errors++, fprintf(stderr, "%s:%d: not so: %s\n", __FILE__, __LINE__, #condition)))

struct own {
    int number, errors;
    MPI_Request request;
};

static void run(void *(*what)(void *), MPI_Request request) {
    pthread_t threads[THREADS];
    struct own own[THREADS];
    for (int i = 0; i < THREADS; i++) {
        own[i] = (struct own){i, 0, request};
        pthread_create(&threads[i], NULL, what, &own[i]);
    }
    for (int i = 0; i < THREADS; i++) {
        pthread_join(threads[i], NULL);
        test_errors += own[i].errors;
    }
}

/* Persistent requests of each thread, begun again and again, ended by lists. */
static void *begin_again(void *given) {
    struct own *own = given;
    const int other = 1 - test_rank;
    int out[MANY], in[MANY], count, places[MANY], flag, done;
    MPI_Request sends[MANY], receives[MANY];
    for (int i = 0; i < MANY; i++) {
        MPI_Send_init(&out[i], 1, MPI_INT, other, 10 * own->number + i, MPI_COMM_WORLD, &sends[i]);
        MPI_Recv_init(&in[i], 1, MPI_INT, other, 10 * own->number + i, MPI_COMM_WORLD, &receives[i]);
    }
    for (int round = 0; round < ROUNDS; round++) {
        for (int i = 0; i < MANY; i++) out[i] = 100 * round + i, in[i] = -1;
        MPI_Startall(MANY, receives);
        MPI_Startall(MANY, sends);
        if (round % 3 == 0) MPI_Waitall(MANY, receives, MPI_STATUSES_IGNORE);
        for (flag = 0; round % 3 == 1 && !flag;) MPI_Testall(MANY, receives, &flag, MPI_STATUSES_IGNORE);
        for (done = 0; round % 3 == 2 && done < MANY; done += count)
            MPI_Waitsome(MANY, receives, &count, places, MPI_STATUSES_IGNORE);
        for (int i = 0; i < MANY; i++) HOLDS(in[i] == 100 * round + i);
        MPI_Waitall(MANY, sends, MPI_STATUSES_IGNORE);
    }
    for (int i = 0; i < MANY; i++) MPI_Request_free(&sends[i]), MPI_Request_free(&receives[i]);
    own->errors = errors;
    return NULL;
}

/* All threads send from one buffer, which has room for all of it. */
static void *send_buffered(void *given) {
    struct own *own = given;
    const int other = 1 - test_rank;
    int *row = calloc(LONG, sizeof *row);
    for (int i = 0; i < MANY; i++) {
        row[0] = i, row[LONG - 1] = own->number;
        HOLDS(MPI_Bsend(row, LONG, MPI_INT, other, own->number, MPI_COMM_WORLD) == MPI_SUCCESS);
    }
    for (int i = 0; i < MANY; i++) {
        MPI_Recv(row, LONG, MPI_INT, other, own->number, MPI_COMM_WORLD, MPI_STATUS_IGNORE);
        HOLDS(row[0] == i && row[LONG - 1] == own->number);
    }
    free(row);
    own->errors = errors;
    return NULL;
}

static void check_buffered(void) {
    const size_t bytes = THREADS * MANY * (LONG * sizeof(int) + MPI_BSEND_OVERHEAD);
    void *room = malloc(bytes), *at = NULL;
    int size = 0;
    MPI_Buffer_attach(room, (int)bytes);
    run(send_buffered, MPI_REQUEST_NULL);
    MPI_Buffer_detach(&at, &size);
    CHECK(at == room && size == (int)bytes);
    free(room);
}

/* The last of the threads tells of the end of an operation that another one waits for. */
static int queries, frees;
static int query(void *extra_state, MPI_Status *status) {
    (void)extra_state;
    status->MPI_TAG = 7;
    queries++;
    return MPI_SUCCESS;
}
static int forget(void *extra_state) {
    (void)extra_state;
    frees++;
    return MPI_SUCCESS;
}
static int cancel(void *extra_state, int complete) {
    (void)extra_state, (void)complete;
    return MPI_SUCCESS;
}
static void *complete_later(void *given) {
    struct own *own = given;
    MPI_Status status = {.MPI_TAG = -1};
    if (own->number == 0) {
        MPI_Wait(&own->request, &status);
        HOLDS(status.MPI_TAG == 7 && own->request == MPI_REQUEST_NULL);
    }
    if (own->number == 1) {
        usleep(2000);
        MPI_Grequest_complete(own->request);
    }
    own->errors = errors;
    return NULL;
}
static void check_generalised(void) {
    for (int round = 0; round < 5; round++) {
        MPI_Request request;
        MPI_Grequest_start(query, forget, cancel, NULL, &request);
        run(complete_later, request);
    }
    CHECK(queries == 5 && frees == 5);
}

/* Threads cancel receives, and free requests, while others wait. */
static void *cancel_and_free(void *given) {
    struct own *own = given;
    static int out[THREADS][ROUNDS];
    int number = -1, flag = 0, other = 1 - test_rank;
    for (int round = 0; round < ROUNDS; round++) {
        MPI_Request receive, send;
        MPI_Status status;
        MPI_Irecv(&number, 1, MPI_INT, other, 900 + own->number, MPI_COMM_WORLD, &receive);
        MPI_Cancel(&receive);
        MPI_Wait(&receive, &status);
        MPI_Test_cancelled(&status, &flag);
        HOLDS(flag);
        MPI_Irecv(&number, 1, MPI_INT, other, own->number, MPI_COMM_WORLD, &receive);
        out[own->number][round] = round;
        MPI_Isend(&out[own->number][round], 1, MPI_INT, other, own->number, MPI_COMM_WORLD, &send);
        MPI_Request_free(&send);
        MPI_Wait(&receive, MPI_STATUS_IGNORE);
        HOLDS(number == round);
    }
    own->errors = errors;
    return NULL;
}

int main(int argc, char **argv) {
    int level = -1;
    MPI_Init_thread(&argc, &argv, MPI_THREAD_MULTIPLE, &level);
    MPI_Comm_rank(MPI_COMM_WORLD, &test_rank);
    CHECK(level == MPI_THREAD_MULTIPLE);
    run(begin_again, MPI_REQUEST_NULL);
    check_buffered();
    check_generalised();
    run(cancel_and_free, MPI_REQUEST_NULL);
    return test_end();
}
