/* What a barrier takes over plain UDP sockets between processes on 127.0.0.1, with blocking receives. In the form of
 * a star each of the others sends process 0 a datagram, and process 0 answers all once it has those of all. In the
 * form of a tree, as ranks have it, the process above r is r without its lowest digit 1 in base two: each tells that
 * one once it has the datagrams of those below it, and answers them once it is answered.
 *
 *   barrier_floor COUNT RANKS ACKS FORM     how long a barrier takes, in microseconds; FORM is star or tree
 *
 * A datagram has 68 bytes, as a rank's in a barrier has. With ACKS 1 each is answered by one of 40 bytes, as ranks
 * acknowledge. Nothing is sent again: on the own machine nothing gets lost here. */
#include <arpa/inet.h>
#include <netinet/in.h>
#include <stdio.h>
#include <stdlib.h>
#include <string.h>
#include <sys/socket.h>
#include <sys/wait.h>
#include <time.h>
#include <unistd.h>

enum { ENTRY = 68, ACK = 40, MOST = 256 };

static struct sockaddr_in addresses[MOST];
static int sockets[MOST];
static char buffer[2048];

static double now(void) {
    struct timespec t;
    clock_gettime(CLOCK_MONOTONIC, &t);
    return t.tv_sec + t.tv_nsec * 1e-9;
}

static void give(int from, int to, size_t bytes) {
    sendto(sockets[from], buffer, bytes, 0, (void *)&addresses[to], sizeof addresses[to]);
}

/* Waits for so many datagrams of entries, answers each if `acks` says so, and leaves acknowledgements aside. */
static void take(int at, int count, int acks) {
    while (count > 0) {
        struct sockaddr_in from;
        socklen_t size = sizeof from;
        if (recvfrom(sockets[at], buffer, sizeof buffer, 0, (void *)&from, &size) != ENTRY) continue;
        count--;
        if (acks) sendto(sockets[at], buffer, ACK, 0, (void *)&from, size);
    }
}

/* Process r is in one barrier; those below it stand `reach - 1` numbers behind it at most. */
static void barrier(int r, int ranks, int acks, int tree) {
    int reach = 1, below = 0;
    if (!tree && r == 0) {
        take(0, ranks - 1, acks);
        for (int other = 1; other < ranks; other++) give(0, other, ENTRY);
        return;
    }
    for (; tree && r % (2 * reach) == 0 && r + reach < ranks; reach *= 2) below++;
    take(r, below, acks);
    if (r > 0) {
        give(r, tree ? r & (r - 1) : 0, ENTRY);
        take(r, 1, acks);
    }
    for (int step = 1; step < reach; step *= 2) give(r, r + step, ENTRY);
}

int main(int count, char **words) {
    if (count != 5) return 2;
    int turns = atoi(words[1]), ranks = atoi(words[2]), acks = atoi(words[3]), tree = strcmp(words[4], "tree") == 0;
    if (ranks < 2 || ranks > MOST) return 2;
    for (int r = 0; r < ranks; r++) {
        socklen_t size = sizeof addresses[r];
        sockets[r] = socket(AF_INET, SOCK_DGRAM, 0);
        addresses[r] = (struct sockaddr_in){.sin_family = AF_INET, .sin_addr.s_addr = htonl(INADDR_LOOPBACK)};
        if (bind(sockets[r], (void *)&addresses[r], size)) return 1;
        getsockname(sockets[r], (void *)&addresses[r], &size);
    }
    for (int r = 1; r < ranks; r++) {
        if (fork() != 0) continue;
        for (int i = 0; i < turns; i++) barrier(r, ranks, acks, tree);
        _exit(0);
    }
    double start = now();
    for (int i = 0; i < turns; i++) barrier(0, ranks, acks, tree);
    printf("%.3f\n", (now() - start) / turns * 1e6);
    while (wait(NULL) > 0) {}
    return 0;
}
