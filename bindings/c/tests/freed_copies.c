/* Copies and parts that are made and freed one behind the other, more than an engine makes in its life (MPI 3.1, 6.4):
 * of MPI_COMM_WORLD, each of the one before it, and of several others. `freed_copies COPIES PARTS` makes so many, and
 * tells on standard error how long each kind took and the rank's memory a twentieth of the way on and at the end.
 * Without words there are fewer, and nothing is told. */
#include "test.h"

enum { COPIES = 5000, PARTS = 1000, PAGE = 4096, MOST_GROWTH = 2 << 20, KEPT = 300, PARENTS = 5, OF_EACH = 900 };

/* A message each way through two communicators, with one tag; the receives are begun in the other order. */
static void check_messages(MPI_Comm first, MPI_Comm second, int number) {
    const int other = 1 - test_rank, sent[2] = {2 * number, 2 * number + 1};
    int got[2] = {-1, -1}, rank = -1;
    MPI_Request requests[4];
    MPI_Comm_rank(second, &rank);
    MPI_Irecv(&got[1], 1, MPI_INT, 1 - rank, 3, second, &requests[0]);
    MPI_Irecv(&got[0], 1, MPI_INT, other, 3, first, &requests[1]);
    MPI_Isend(&sent[0], 1, MPI_INT, other, 3, first, &requests[2]);
    MPI_Isend(&sent[1], 1, MPI_INT, 1 - rank, 3, second, &requests[3]);
    MPI_Waitall(4, requests, MPI_STATUSES_IGNORE);
    CHECK(got[0] == 2 * number && got[1] == 2 * number + 1);
}

static void make_copy(MPI_Comm *made) { MPI_Comm_dup(MPI_COMM_WORLD, made); }

/* Both ranks, in the contrary order. */
static void make_part(MPI_Comm *made) {
    int rank = -1;
    MPI_Comm_split(MPI_COMM_WORLD, 4, -test_rank, made);
    MPI_Comm_rank(*made, &rank);
    CHECK(rank == 1 - test_rank);
}

/* The communicator of which the next copy is made. */
static MPI_Comm former = MPI_COMM_NULL;

/* Each of the one before it. */
static void make_next(MPI_Comm *made) {
    MPI_Comm next;
    if (former == MPI_COMM_NULL) make_copy(&former);
    MPI_Comm_dup(former, &next);
    MPI_Comm_free(&former);
    MPI_Comm_dup(next, made);
    former = next;
}

/* The bytes of this process that are in memory. */
static long memory(void) {
    long all = 0, resident = 0;
    FILE *file = fopen("/proc/self/statm", "r");
    if (file == NULL || fscanf(file, "%ld %ld", &all, &resident) != 2) resident = 0;
    if (file != NULL) fclose(file);
    return resident * PAGE;
}

/* So many are made and freed; now and then messages go through one and through MPI_COMM_WORLD. */
static void make_and_free(const char *what, void (*make)(MPI_Comm *), int count, bool is_told) {
    const int step = count < 20 ? 1 : count / 20;
    const double begun = MPI_Wtime();
    long early = 0;
    MPI_Comm made;
    for (int number = 1; number <= count; number++) {
        make(&made);
        if (number % step == 0) check_messages(MPI_COMM_WORLD, made, number);
        MPI_Comm_free(&made);
        if (number == step) early = memory();
    }
    const long late = memory();
    if (!is_told) return;
    fprintf(stderr, "rank %d: %d %s in %.1f s, memory %ld KiB behind %d, %ld KiB at the end\n", test_rank, count, what,
            MPI_Wtime() - begun, early >> 10, step, late >> 10);
    CHECK(late < early + MOST_GROWTH);
}

/* Copies that are there at the same time, and are freed one behind the other. */
static void keep_and_free(void) {
    static MPI_Comm kept[KEPT];
    for (int i = 0; i < KEPT; i++) make_copy(&kept[i]);
    check_messages(kept[0], kept[KEPT - 1], 7);
    for (int i = 0; i < KEPT - 1; i++) MPI_Comm_free(&kept[i]);
    check_messages(MPI_COMM_WORLD, kept[KEPT - 1], 8);
    MPI_Comm_free(&kept[KEPT - 1]);
}

/* Of each of several copies others are made: first of all, while the copies themselves are the engine's. */
static void make_of_each(void) {
    MPI_Comm parents[PARENTS], made;
    for (int parent = 0; parent < PARENTS; parent++) make_copy(&parents[parent]);
    for (int number = 0; number < OF_EACH; number++)
        for (int parent = 0; parent < PARENTS; parent++) {
            MPI_Comm_dup(parents[parent], &made);
            if (number % 100 == 0) check_messages(parents[parent], made, number);
            MPI_Comm_free(&made);
        }
    for (int parent = 0; parent < PARENTS; parent++) MPI_Comm_free(&parents[parent]);
}

int main(int argc, char **argv) {
    test_begin(&argc, &argv);
    const bool is_told = argc > 2;
    make_of_each();
    make_and_free("copies", make_copy, is_told ? atoi(argv[1]) : COPIES, is_told);
    make_and_free("parts", make_part, is_told ? atoi(argv[2]) : PARTS, is_told);
    make_and_free("copies of the one before", make_next, is_told ? atoi(argv[1]) : COPIES, is_told);
    MPI_Comm_free(&former);
    keep_and_free();
    return test_end();
}
