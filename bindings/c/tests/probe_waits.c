/* A rank that waits by probes alone, for what a message of its own brings (MPI 3.1, 3.8): where that is lost it has to
 * go again meanwhile. */
#include "test.h"

enum { ROUNDS = 40 };

/* Waits for the answer by a probe that waits. */
static void await_by_probe(int tag) {
    MPI_Status status;
    MPI_Probe(1, tag, MPI_COMM_WORLD, &status);
    CHECK(status.MPI_SOURCE == 1 && status.MPI_TAG == tag);
}

/* The same by probes that don't. */
static void await_by_probes(int tag) {
    int flag = 0;
    while (!flag) MPI_Iprobe(1, tag, MPI_COMM_WORLD, &flag, MPI_STATUS_IGNORE);
}

/* The same by probes that take the message out; it is received then. */
static int receive_by_probes(int tag) {
    int flag = 0, number = 0;
    MPI_Message message;
    while (!flag) MPI_Improbe(1, tag, MPI_COMM_WORLD, &flag, &message, MPI_STATUS_IGNORE);
    MPI_Mrecv(&number, 1, MPI_INT, &message, MPI_STATUS_IGNORE);
    return number;
}

static void ask(int round) {
    int number = 0;
    MPI_Send(&round, 1, MPI_INT, 1, round, MPI_COMM_WORLD);
    if (round % 3 == 0) await_by_probe(round);
    if (round % 3 == 1) await_by_probes(round);
    if (round % 3 == 2) number = receive_by_probes(round);
    else MPI_Recv(&number, 1, MPI_INT, 1, round, MPI_COMM_WORLD, MPI_STATUS_IGNORE);
    CHECK(number == round + 1);
}

static void answer(int round) {
    int number = -1;
    MPI_Recv(&number, 1, MPI_INT, 0, round, MPI_COMM_WORLD, MPI_STATUS_IGNORE);
    number++;
    MPI_Send(&number, 1, MPI_INT, 0, round, MPI_COMM_WORLD);
}

int main(int argc, char **argv) {
    test_begin(&argc, &argv);
    for (int round = 0; round < ROUNDS; round++) {
        if (test_rank == 0) ask(round);
        if (test_rank == 1) answer(round);
    }
    return test_end();
}
