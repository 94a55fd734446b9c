/* A rank that sends faster than another one receives has neither memory grow: what waits unasked stays within 4 MiB.
 * What is less than that needs no receive (MPI 3.1, 3.4). */
#include "test.h"

enum { SHORT = 1024, FEW = 3072 /* 3 MiB */, LONG = 60000, MANY = 600 /* 34 MiB */, KIB = 1024 };

static char row[LONG];

/* The most memory that the process had, in KiB. */
static long peak(void) {
    FILE *file = fopen("/proc/self/status", "r");
    char line[256];
    long most = 0;
    while (file != NULL && fgets(line, sizeof line, file) != NULL) (void)sscanf(line, "VmHWM: %ld", &most);
    if (file != NULL) fclose(file);
    return most;
}

/* Whether something counts along that has memory of its own: ASan, which keeps what was given back, or valgrind. */
static bool is_checked(void) {
    const char *loaded = getenv("LD_PRELOAD");
#ifdef __SANITIZE_ADDRESS__
    return true;
#endif
    return loaded != NULL && strstr(loaded, "vgpreload") != NULL;
}

/* So many messages, of which the receiver asks for the last one first. */
static void send_unasked(void) {
    for (int i = 0; i < FEW; i++) MPI_Send(row, SHORT, MPI_BYTE, 1, 1, MPI_COMM_WORLD);
    MPI_Send(row, 1, MPI_BYTE, 1, 2, MPI_COMM_WORLD);
}

static void receive_late(void) {
    MPI_Recv(row, 1, MPI_BYTE, 0, 2, MPI_COMM_WORLD, MPI_STATUS_IGNORE);
    for (int i = 0; i < FEW; i++) MPI_Recv(row, SHORT, MPI_BYTE, 0, 1, MPI_COMM_WORLD, MPI_STATUS_IGNORE);
}

/* Takes in what comes, and receives none of it for a while. */
static void receive_slowly(void) {
    const double until = MPI_Wtime() + 0.5;
    int flag;
    while (MPI_Wtime() < until) MPI_Iprobe(0, 9, MPI_COMM_WORLD, &flag, MPI_STATUS_IGNORE);
    for (int i = 0; i < MANY; i++) {
        MPI_Recv(row, LONG, MPI_BYTE, 0, 3, MPI_COMM_WORLD, MPI_STATUS_IGNORE);
        CHECK(is_all(row, LONG, (unsigned char)i));
    }
}

static void send_fast(void) {
    for (int i = 0; i < MANY; i++) {
        memset(row, i, LONG);
        MPI_Send(row, LONG, MPI_BYTE, 1, 3, MPI_COMM_WORLD);
    }
}

int main(int argc, char **argv) {
    test_begin(&argc, &argv);
    if (test_rank == 0) send_unasked();
    else receive_late();
    const long before = peak();
    if (test_rank == 0) send_fast();
    else receive_slowly();
    CHECK(before > 0 && (is_checked() || peak() - before < 12 * KIB));
    return test_end();
}
