/* How long messages and collectives take under an MPI: rank 0 prints a line for each figure, its name and the
 * least of many short batches.
 *
 *   messages small | large     two ranks: half a round trip in microseconds for sizes from 0 bytes to 1 MiB
 *   messages rate              two ranks: messages of 4 bytes a second with 64 in flight
 *   messages stream            two ranks: messages of 1 MiB one way, in MB a second
 *   messages barrier           all ranks, in microseconds
 *   messages allreduce         all ranks: one of 8 bytes, in microseconds
 */
#include <mpi.h>
#include <stdio.h>
#include <stdlib.h>
#include <string.h>

enum { BATCHES = 60, LARGEST = 1 << 20, IN_FLIGHT = 64 };

static int rank;
static char *out_room, *in_room;

/* The least that a batch takes at rank 0, in seconds; all ranks run it. Other work on the machine makes batches longer,
 * so the shortest says what the messages take. */
static double least(void (*batch)(int size, int count), int size, int count) {
    double found = 1e9;
    for (int i = 0; i < BATCHES; i++) {
        MPI_Barrier(MPI_COMM_WORLD);
        double begun = MPI_Wtime();
        batch(size, count);
        double time = MPI_Wtime() - begun;
        if (i > 0 && time < found) found = time;
    }
    return found;
}

static void show(const char *name, int size, double value) {
    if (rank == 0) printf("%s %d %.3f\n", name, size, value);
    fflush(stdout);
}

static void round_trips(int size, int count) {
    for (int i = 0; i < count; i++) {
        if (rank == 0) MPI_Send(out_room, size, MPI_BYTE, 1, 1, MPI_COMM_WORLD);
        MPI_Recv(in_room, size, MPI_BYTE, 1 - rank, 1, MPI_COMM_WORLD, MPI_STATUS_IGNORE);
        if (rank == 1) MPI_Send(out_room, size, MPI_BYTE, 0, 1, MPI_COMM_WORLD);
    }
}

static void in_flight(int size, int count) {
    MPI_Request requests[IN_FLIGHT];
    MPI_Status statuses[IN_FLIGHT];
    for (int i = 0; i < count; i++) {
        for (int k = 0; k < IN_FLIGHT; k++) {
            if (rank == 0) MPI_Isend(out_room, size, MPI_BYTE, 1, 2, MPI_COMM_WORLD, &requests[k]);
            else MPI_Irecv(in_room + k * size, size, MPI_BYTE, 0, 2, MPI_COMM_WORLD, &requests[k]);
        }
        MPI_Waitall(IN_FLIGHT, requests, statuses);
    }
    if (rank == 1) MPI_Send(out_room, 0, MPI_BYTE, 0, 3, MPI_COMM_WORLD);
    else MPI_Recv(in_room, 0, MPI_BYTE, 1, 3, MPI_COMM_WORLD, MPI_STATUS_IGNORE);
}

static void stream(int size, int count) {
    for (int i = 0; i < count; i++) {
        if (rank == 0) MPI_Send(out_room, size, MPI_BYTE, 1, 4, MPI_COMM_WORLD);
        else MPI_Recv(in_room, size, MPI_BYTE, 0, 4, MPI_COMM_WORLD, MPI_STATUS_IGNORE);
    }
    if (rank == 1) MPI_Send(out_room, 0, MPI_BYTE, 0, 5, MPI_COMM_WORLD);
    else MPI_Recv(in_room, 0, MPI_BYTE, 1, 5, MPI_COMM_WORLD, MPI_STATUS_IGNORE);
}

static void barriers(int size, int count) {
    (void)size;
    for (int i = 0; i < count; i++) MPI_Barrier(MPI_COMM_WORLD);
}

static void reductions(int size, int count) {
    (void)size;
    long long own = rank, all;
    for (int i = 0; i < count; i++) MPI_Allreduce(&own, &all, 1, MPI_LONG_LONG, MPI_SUM, MPI_COMM_WORLD);
}

static void measure_round_trips(const int *sizes, int count_of_sizes, int count) {
    for (int i = 0; i < count_of_sizes; i++)
        show("half_round_trip", sizes[i], least(round_trips, sizes[i], count) / count / 2 * 1e6);
}

static void measure(const char *what) {
    static const int small[] = {0, 4, 64, 1024, 2048}, large[] = {16384, 131072, 1048576};
    if (strcmp(what, "small") == 0) measure_round_trips(small, sizeof small / sizeof *small, 20);
    if (strcmp(what, "large") == 0) measure_round_trips(large, sizeof large / sizeof *large, 1);
    if (strcmp(what, "rate") == 0) show("rate", 4, 4 * IN_FLIGHT / least(in_flight, 4, 4));
    if (strcmp(what, "stream") == 0) show("stream", LARGEST, 2.0 * LARGEST / least(stream, LARGEST, 2) / 1e6);
    if (strcmp(what, "barrier") == 0) show("barrier", 0, least(barriers, 0, 10) / 10 * 1e6);
    if (strcmp(what, "allreduce") == 0) show("allreduce", 8, least(reductions, 8, 10) / 10 * 1e6);
}

int main(int count, char **words) {
    MPI_Init(&count, &words);
    MPI_Comm_rank(MPI_COMM_WORLD, &rank);
    out_room = calloc(1, LARGEST);
    in_room = calloc(1, LARGEST);
    if (out_room == NULL || in_room == NULL || count != 2) MPI_Abort(MPI_COMM_WORLD, 2);
    memset(out_room, 1 + rank, LARGEST);
    measure(words[1]);
    free(out_room);
    free(in_room);
    MPI_Finalize();
    return 0;
}
