/* Each rank sends so many bytes to each, again and again, all at once: `all_to_all BYTES ROUNDS`. Rank 0 tells how long
 * the rounds took, in seconds; a row that came wrong ends the job. */
#include <mpi.h>
#include <stdio.h>
#include <stdlib.h>
#include <string.h>

/* One round: from each rank comes its own number in each byte. */
static void go_round(int length, int size, const char *out, char *in, MPI_Request *requests) {
    int count = 0;
    for (int i = 0; i < size; i++)
        MPI_Irecv(in + (size_t)i * (size_t)length, length, MPI_BYTE, i, 1, MPI_COMM_WORLD, &requests[count++]);
    for (int i = 0; i < size; i++) MPI_Isend(out, length, MPI_BYTE, i, 1, MPI_COMM_WORLD, &requests[count++]);
    MPI_Waitall(count, requests, MPI_STATUSES_IGNORE);
    for (int i = 0; i < size; i++)
        for (int at = 0; at < length; at += 509)
            if (in[(size_t)i * (size_t)length + (size_t)at] != (char)i) MPI_Abort(MPI_COMM_WORLD, 9);
    memset(in, -1, (size_t)length * (size_t)size);
}

int main(int argc, char **argv) {
    int rank, size;
    MPI_Init(&argc, &argv); /* it takes the launcher's words away */
    const int length = argc > 2 ? atoi(argv[1]) : 102400, rounds = argc > 2 ? atoi(argv[2]) : 1;
    MPI_Comm_rank(MPI_COMM_WORLD, &rank);
    MPI_Comm_size(MPI_COMM_WORLD, &size);
    char *out = malloc((size_t)length), *in = calloc((size_t)size, (size_t)length);
    MPI_Request *requests = malloc(2 * (size_t)size * sizeof *requests);
    memset(out, rank, (size_t)length);
    MPI_Barrier(MPI_COMM_WORLD);
    const double begun = MPI_Wtime();
    for (int it = 0; it < rounds; it++) go_round(length, size, out, in, requests);
    MPI_Barrier(MPI_COMM_WORLD);
    if (rank == 0) printf("%.3f\n", MPI_Wtime() - begun);
    MPI_Finalize();
    free(out);
    free(in);
    free(requests);
    return 0;
}
