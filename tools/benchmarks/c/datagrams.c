/* The same figures as those of two ranks, of plain datagrams on 127.0.0.1 between two processes that ask again and
 * again for what comes: nothing is acknowledged or sent again, but for one datagram back behind each 64.
 *
 *   datagrams PORT     it takes this port and the next
 */
#define _GNU_SOURCE
#include <arpa/inet.h>
#include <netinet/in.h>
#include <signal.h>
#include <stdio.h>
#include <stdlib.h>
#include <sys/prctl.h>
#include <sys/socket.h>
#include <time.h>
#include <unistd.h>

enum { BATCHES = 60, PIECE = 1068, IN_FLIGHT = 64, ROOM = 65536 };

static int rank, own;
static struct sockaddr_in other;
static char room[ROOM];

static double seconds(void) {
    struct timespec time;
    clock_gettime(CLOCK_MONOTONIC, &time);
    return (double)time.tv_sec + (double)time.tv_nsec * 1e-9;
}

static void give(int size) { sendto(own, room, (size_t)size, 0, (struct sockaddr *)&other, sizeof other); }

static void take(void) {
    while (recv(own, room, sizeof room, MSG_DONTWAIT) < 0) {}
}

static void round_trips(int size, int count) {
    for (int i = 0; i < count; i++) {
        if (rank == 0) give(size);
        take();
        if (rank == 1) give(size);
    }
}

/* Windows of 64 datagrams, each answered by one. */
static void windows(int size, int count) {
    for (int i = 0; i < count; i++) {
        for (int k = 0; k < IN_FLIGHT; k++) {
            if (rank == 0) give(size);
            else take();
        }
        if (rank == 1) give(0);
        else take();
    }
}

/* The least that one of many batches takes, in seconds. */
static double least(void (*batch)(int size, int count), int size, int count) {
    double found = 1e9;
    for (int i = 0; i < BATCHES; i++) {
        double begun = seconds();
        batch(size, count);
        double time = seconds() - begun;
        if (time < found) found = time;
    }
    return found;
}

static struct sockaddr_in at(int port) {
    return (struct sockaddr_in){
        .sin_family = AF_INET, .sin_port = htons((uint16_t)port), .sin_addr.s_addr = htonl(INADDR_LOOPBACK)};
}

int main(int count, char **words) {
    static const int sizes[] = {0, 4, 64, 1024, 2048, 16384};
    int port = count == 2 ? atoi(words[1]) : 0, large = 4 << 20, sockets[2];
    for (int i = 0; i < 2; i++) {
        struct sockaddr_in address = at(port + i);
        sockets[i] = socket(AF_INET, SOCK_DGRAM, 0);
        setsockopt(sockets[i], SOL_SOCKET, SO_RCVBUF, &large, sizeof large);
        if (bind(sockets[i], (struct sockaddr *)&address, sizeof address) != 0) return 1;
    }
    pid_t parent = getpid();
    rank = fork() == 0;
    if (rank == 1 && (prctl(PR_SET_PDEATHSIG, SIGKILL) != 0 || getppid() != parent)) return 1;
    own = sockets[rank];
    other = at(port + 1 - rank);
    for (size_t i = 0; i < sizeof sizes / sizeof *sizes; i++) {
        double time = least(round_trips, sizes[i], 20) / 20 / 2;
        if (rank == 0) printf("half_round_trip %d %.3f\n", sizes[i], time * 1e6);
    }
    double rate = 10 * IN_FLIGHT / least(windows, 4, 10);
    double stream = 30.0 * IN_FLIGHT * 1024 / least(windows, PIECE, 30);
    if (rank == 0) printf("rate 4 %.3f\nstream 1048576 %.3f\n", rate, stream / 1e6);
    return 0;
}
