/* Rank 0 makes five lines of a picture and sends each while it makes the next one; rank 1 adds up each line. */
#include <mpi.h>
#include <stdio.h>

enum { LINES = 5, WIDTH = 1000 };

static void make(int *line, int number) {
    for (int i = 0; i < WIDTH; i++) line[i] = number * 10 + i % 10;
}

static void produce(void) {
    static int picture[LINES][WIDTH];
    MPI_Request requests[LINES];
    for (int number = 0; number < LINES; number++) {
        make(picture[number], number);
        MPI_Isend(picture[number], WIDTH, MPI_INT, 1, number, MPI_COMM_WORLD, &requests[number]);
    }
    MPI_Waitall(LINES, requests, MPI_STATUSES_IGNORE);
}

static void consume(void) {
    int line[WIDTH];
    for (int number = 0; number < LINES; number++) {
        long sum = 0;
        MPI_Recv(line, WIDTH, MPI_INT, 0, number, MPI_COMM_WORLD, MPI_STATUS_IGNORE);
        for (int i = 0; i < WIDTH; i++) sum += line[i];
        printf("line %d: %ld\n", number, sum);
    }
}

int main(int argc, char **argv) {
    int rank;
    MPI_Init(&argc, &argv);
    MPI_Comm_rank(MPI_COMM_WORLD, &rank);
    if (rank == 0) produce();
    else consume();
    MPI_Finalize();
    return 0;
}
