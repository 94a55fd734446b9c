/* MPI_Imrecv begins a receive and doesn't wait for its data (MPI 3.1, 3.8.3), whatever their sender does. */
#define _POSIX_C_SOURCE 200809L
#include "test.h"

#include <signal.h>
#include <time.h>
#include <unistd.h>

enum { LENGTH = 200000, MESSAGES = 3, LONGEST = 10 /* seconds */ };

static volatile sig_atomic_t is_woken;
static void wake(int number) {
    (void)number;
    is_woken = 1;
}

static char sent[MESSAGES][LENGTH], came[MESSAGES][LENGTH];

/* Sends long messages, and lets their data go only behind a signal of the other rank. */
static void send_late(void) {
    MPI_Request requests[MESSAGES];
    int own = (int)getpid(), go;
    is_woken = 0;
    MPI_Send(&own, 1, MPI_INT, 1, 0, MPI_COMM_WORLD);
    for (int i = 0; i < MESSAGES; i++) {
        fill(sent[i], LENGTH, (unsigned)i);
        MPI_Isend(sent[i], LENGTH, MPI_BYTE, 1, 1 + i, MPI_COMM_WORLD, &requests[i]);
    }
    MPI_Recv(&go, 1, MPI_INT, 1, 0, MPI_COMM_WORLD, MPI_STATUS_IGNORE);
    for (int i = 0; i < 100 * LONGEST && !is_woken; i++) nanosleep(&(struct timespec){.tv_nsec = 10000000}, NULL);
    CHECK(is_woken);
    MPI_Waitall(MESSAGES, requests, MPI_STATUSES_IGNORE);
}

/* Takes the messages out, and begins to receive them. */
static void begin(MPI_Request requests[]) {
    MPI_Message messages[MESSAGES];
    int other, go = 1;
    MPI_Recv(&other, 1, MPI_INT, 0, 0, MPI_COMM_WORLD, MPI_STATUS_IGNORE);
    for (int i = 0; i < MESSAGES; i++) MPI_Mprobe(0, 1 + i, MPI_COMM_WORLD, &messages[i], MPI_STATUS_IGNORE);
    MPI_Send(&go, 1, MPI_INT, 0, 0, MPI_COMM_WORLD);
    for (int i = 0; i < MESSAGES; i++) {
        MPI_Imrecv(came[i], LENGTH, MPI_BYTE, &messages[i], &requests[i]);
        CHECK(messages[i] == MPI_MESSAGE_NULL && requests[i] != MPI_REQUEST_NULL);
    }
    int flag;
    MPI_Test(&requests[1], &flag, MPI_STATUS_IGNORE);
    MPI_Request_get_status(requests[2], &flag, MPI_STATUS_IGNORE);
    kill((pid_t)other, SIGUSR1);
}

static void check_came(int which, const MPI_Status *status) {
    int count = 0;
    MPI_Get_count(status, MPI_BYTE, &count);
    CHECK(count == LENGTH && status->MPI_SOURCE == 0 && status->MPI_TAG == 1 + which);
    CHECK(is_filled(came[which], LENGTH, (unsigned)which));
}

/* Waits for them, the last one first. */
static void wait_for_each(void) {
    MPI_Request requests[MESSAGES];
    MPI_Status status;
    begin(requests);
    for (int i = MESSAGES - 1; i >= 0; i--) {
        MPI_Wait(&requests[i], &status);
        check_came(i, &status);
    }
}

/* Asks again and again, while something else is sent and received, and lets one go. */
static void ask_for_all(void) {
    MPI_Request requests[MESSAGES], other;
    MPI_Status statuses[MESSAGES];
    int flag = 0, got = 0;
    begin(requests);
    MPI_Irecv(&got, 1, MPI_INT, 1, 9, MPI_COMM_WORLD, &other);
    MPI_Send(&test_size, 1, MPI_INT, 1, 9, MPI_COMM_WORLD);
    MPI_Wait(&other, MPI_STATUS_IGNORE);
    CHECK(got == test_size);
    MPI_Cancel(&requests[0]);
    while (!flag) MPI_Testall(MESSAGES - 1, requests, &flag, statuses);
    for (int i = 0; i < MESSAGES - 1; i++) check_came(i, &statuses[i]);
    MPI_Request_free(&requests[MESSAGES - 1]);
}

/* Short messages, those that are too long, of another type, of no process, from itself. */
static void check_ends(void) {
    int own[4] = {1, 2, 3, 4}, got[4] = {0};
    MPI_Message message;
    MPI_Request request;
    MPI_Status status;
    for (int room = 2; room <= 4; room += 2) {
        MPI_Send(own, 3, MPI_INT, test_rank, 5, MPI_COMM_WORLD);
        MPI_Mprobe(test_rank, 5, MPI_COMM_WORLD, &message, &status);
        MPI_Imrecv(got, room, MPI_INT, &message, &request);
        int class = class_of(MPI_Wait(&request, &status));
        CHECK(class == (room < 3 ? MPI_ERR_TRUNCATE : MPI_SUCCESS));
        CHECK(got[2] == (room < 3 ? 0 : 3));
    }
    MPI_Mprobe(MPI_PROC_NULL, 5, MPI_COMM_WORLD, &message, &status);
    MPI_Imrecv(got, 4, MPI_INT, &message, &request);
    CHECK(MPI_Wait(&request, &status) == MPI_SUCCESS && status.MPI_SOURCE == MPI_PROC_NULL && got[0] == 1);
}

int main(int argc, char **argv) {
    test_begin(&argc, &argv);
    return_errors();
    sigaction(SIGUSR1, &(struct sigaction){.sa_handler = wake}, NULL);
    if (test_rank == 0) send_late();
    else wait_for_each();
    MPI_Barrier(MPI_COMM_WORLD);
    if (test_rank == 0) send_late();
    else ask_for_all();
    check_ends();
    return test_end();
}
