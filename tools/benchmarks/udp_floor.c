/* What plain UDP sockets take between two processes on 127.0.0.1, with blocking receives.
 *
 *   udp_floor pong COUNT ACKS CORE CORE     half a round trip of a datagram of 56 bytes, in microseconds
 *   udp_floor window COUNT ACKS CORE CORE   datagrams of 56 bytes one way, 64 at a time and then one back: a second
 *   udp_floor stream COUNT ACKS CORE CORE   the same with datagrams of 1,068 bytes, of which 1,024 are data: MB of them
 *
 * Each process is kept on the core that is named for it, as ranks are by tools/benchmarks/rank: left to themselves
 * both mostly sit on one.
 *
 * 56 bytes are those of a message of 4 bytes between two ranks, and 1,068 those of a piece of a large one. With ACKS
 * 1 each datagram is answered by one of 40 bytes first, as a rank acknowledges it. */
#define _GNU_SOURCE
#include <arpa/inet.h>
#include <netinet/in.h>
#include <sched.h>
#include <stdio.h>
#include <stdlib.h>
#include <string.h>
#include <sys/socket.h>
#include <sys/wait.h>
#include <time.h>
#include <unistd.h>

enum { MESSAGE = 56, PIECE = 1068, DATA = 1024, ACK = 40, WINDOW = 64 };

static int mine;
static struct sockaddr_in other;
static char buffer[2048];

static double now(void) {
    struct timespec t;
    clock_gettime(CLOCK_MONOTONIC, &t);
    return t.tv_sec + t.tv_nsec * 1e-9;
}

static void give(size_t bytes) { sendto(mine, buffer, bytes, 0, (void *)&other, sizeof other); }

static void take(ssize_t bytes) {
    while (recv(mine, buffer, sizeof buffer, 0) != bytes) {}
}

int main(int count, char **words) {
    if (count != 6) return 2;
    int streams = !strcmp(words[1], "stream"), windowed = streams || !strcmp(words[1], "window");
    int bytes = streams ? PIECE : MESSAGE;
    int turns = atoi(words[2]), acks = atoi(words[3]);
    int sockets[2];
    struct sockaddr_in addresses[2];
    socklen_t size = sizeof addresses[0];
    for (int i = 0; i < 2; i++) {
        sockets[i] = socket(AF_INET, SOCK_DGRAM, 0);
        addresses[i] = (struct sockaddr_in){.sin_family = AF_INET, .sin_addr.s_addr = htonl(INADDR_LOOPBACK)};
        if (bind(sockets[i], (void *)&addresses[i], size)) return 1;
        getsockname(sockets[i], (void *)&addresses[i], &size);
    }
    int child = fork() == 0;
    mine = sockets[child];
    other = addresses[!child];
    cpu_set_t core;
    CPU_ZERO(&core);
    CPU_SET(atoi(words[4 + child]), &core);
    if (sched_setaffinity(0, sizeof core, &core)) return 1;
    int one_way = windowed ? WINDOW : 1;
    double start = now();
    for (int turn = 0; turn < turns; turn++) {
        for (int leg = 0; leg < 2; leg++) {
            int datagrams = leg == 0 ? one_way : 1;
            if (leg == child) {
                for (int i = 0; i < datagrams; i++) give(bytes);
            } else {
                for (int i = 0; i < datagrams; i++) {
                    take(bytes);
                    if (acks) give(ACK);
                }
            }
        }
    }
    double took = now() - start;
    if (!child) {
        if (streams) printf("%.1f\n", (double)turns * WINDOW * DATA / took / 1e6);
        else if (windowed) printf("%.0f\n", (double)turns * WINDOW / took);
        else printf("%.3f\n", took / turns / 2 * 1e6);
        wait(0);
    }
    return 0;
}
