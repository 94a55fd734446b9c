/* Stands between ranks and passes their datagrams on late, loses some at random, and is a line of so many bits a
 * second with a queue.
 *
 *   slow_link JOBS RANKS PORT DELAY PERCENT RATE QUEUE SEED
 *
 * Rank R is at 127.0.R+10.R+1 and is told that rank S is at 127.0.R+10.S+1; rank S of job J has the port
 * PORT + J * RANKS + S at each of them. So each rank sees the others at addresses of its own, and every datagram comes
 * from the one whose rank its header names. A datagram goes on DELAY microseconds after it left the line from its rank
 * to the other one, which all jobs share; the line sends RATE bits a second (0: at once), with 28 bytes more for each
 * datagram, and one that finds QUEUE others waiting is lost, and so are PERCENT of a hundred. It says 'ready' once it
 * is; at SIGUSR1 and at SIGTERM it prints for each job how many frames came the first time, how many again, and how
 * many datagrams it lost by chance and by its queue. */
#define _GNU_SOURCE
#include <arpa/inet.h>
#include <netinet/in.h>
#include <poll.h>
#include <signal.h>
#include <stdint.h>
#include <stdio.h>
#include <stdlib.h>
#include <string.h>
#include <sys/prctl.h>
#include <sys/socket.h>
#include <time.h>
#include <unistd.h>

enum { MOST = 16, MOST_JOBS = 4, PLACES = 2048, LONGEST = 1 << 16, ROOM = 16 << 20, OVERHEAD = 28 };
enum { HEADER = 32, KIND = 5, FRAME = 1, SEQUENCE = 24 };

/* A datagram on its way: when the line is done with it, and when it comes. */
struct packet {
    uint64_t sent, due;
    size_t length;
    unsigned char bytes[LONGEST];
};

/* The way from one rank to another. */
struct way {
    int socket;
    struct sockaddr_in target;
    uint64_t first, count, next;
    struct packet *places;
    struct counts *counts;
};

struct counts {
    unsigned long long frames, again, lost, full;
};

/* What the jobs have from one rank to another: a line, which is free from some time on, and a way each. */
struct line {
    uint64_t free;
    struct way ways[MOST_JOBS];
};

struct relay {
    int jobs, ranks, percent;
    uint64_t delay, rate, queue, drawn;
    struct line lines[MOST][MOST];
    struct counts counts[MOST_JOBS];
};

static volatile sig_atomic_t is_over, is_asked;

static void end(int number) {
    (void)number;
    is_over = 1;
}

static void ask(int number) {
    (void)number;
    is_asked = 1;
}

static uint64_t now(void) {
    struct timespec time;
    clock_gettime(CLOCK_MONOTONIC, &time);
    return (uint64_t)time.tv_sec * 1000000000u + (uint64_t)time.tv_nsec;
}

/* Where this rank sees that one. */
static struct sockaddr_in seen(int rank, int other, int port) {
    uint32_t address = (127u << 24) | (uint32_t)(rank + 10) << 8 | (uint32_t)(other + 1);
    struct in_addr there = {htonl(address)};
    return (struct sockaddr_in){.sin_family = AF_INET, .sin_port = htons((uint16_t)(port + other)), .sin_addr = there};
}

/* A socket at this address. */
static int at(struct sockaddr_in address) {
    int made = socket(AF_INET, SOCK_DGRAM | SOCK_NONBLOCK, 0), room = ROOM;
    setsockopt(made, SOL_SOCKET, SO_RCVBUFFORCE, &room, sizeof room);
    if (made < 0 || bind(made, (void *)&address, sizeof address)) {
        perror("slow_link");
        exit(1);
    }
    return made;
}

/* The ways of a job from one rank to another, whose port is this one. */
static void open_way(struct relay *relay, int job, int from, int to, int port) {
    struct way *way = &relay->lines[from][to].ways[job];
    way->socket = at(seen(from, to, port));
    way->target = seen(to, to, port);
    way->places = calloc(PLACES, sizeof *way->places);
    way->counts = &relay->counts[job];
    if (!way->places) exit(1);
}

/* All ways between the ranks. */
static void open_ways(struct relay *relay, int port) {
    for (int job = 0; job < relay->jobs; job++)
        for (int from = 0; from < relay->ranks; from++)
            for (int to = 0; to < relay->ranks; to++)
                if (from != to) open_way(relay, job, from, to, port + job * relay->ranks);
}

/* Counts a frame as a first one or as one that went before. */
static void count_frame(struct way *way, const struct packet *packet) {
    uint64_t number = 0;
    if (packet->length < HEADER || packet->bytes[KIND] != FRAME) return;
    for (int it = 0; it < 8; it++) number = number << 8 | packet->bytes[SEQUENCE + it];
    if (number < way->next) {
        way->counts->again++;
        return;
    }
    way->next = number + 1;
    way->counts->frames++;
}

/* How many datagrams of a way the line has not sent yet. */
static uint64_t waiting(const struct way *way, uint64_t time) {
    uint64_t found = way->count;
    while (found > 0 && way->places[(way->first + way->count - found) % PLACES].sent <= time) found--;
    return found;
}

/* The same of all jobs. */
static uint64_t queued(const struct relay *relay, const struct line *line, uint64_t time) {
    uint64_t found = 0;
    for (int job = 0; job < relay->jobs; job++) found += waiting(&line->ways[job], time);
    return found;
}

/* Takes a datagram in, or loses it. */
static void take_in(struct relay *relay, struct line *line, struct way *way, struct packet *packet) {
    uint64_t time = now(), begins = line->free > time ? line->free : time;
    uint64_t *drawn = &relay->drawn;
    count_frame(way, packet);
    *drawn ^= *drawn << 13, *drawn ^= *drawn >> 7, *drawn ^= *drawn << 17;
    if (*drawn % 100 < (uint64_t)relay->percent) {
        way->counts->lost++;
        return;
    }
    if (way->count == PLACES || (relay->rate && queued(relay, line, time) > relay->queue)) {
        way->counts->full++;
        return;
    }
    packet->sent = relay->rate ? begins + (packet->length + OVERHEAD) * 8 * 1000000000u / relay->rate : time;
    packet->due = packet->sent + relay->delay;
    line->free = packet->sent;
    way->places[(way->first + way->count++) % PLACES] = *packet;
}

/* Takes in what has come. */
static void receive(struct relay *relay, struct line *line, struct way *way) {
    struct packet packet;
    for (;;) {
        ssize_t length = recv(way->socket, packet.bytes, sizeof packet.bytes, 0);
        if (length < 0) return;
        packet.length = (size_t)length;
        take_in(relay, line, way, &packet);
    }
}

/* Passes on what is due, from where the other rank sees this one; answers when the next one is. */
static uint64_t pass_on(struct way *way, int from_socket, uint64_t time) {
    while (way->count > 0) {
        struct packet *packet = &way->places[way->first % PLACES];
        if (packet->due > time) return packet->due;
        sendto(from_socket, packet->bytes, packet->length, 0, (void *)&way->target, sizeof way->target);
        way->first++;
        way->count--;
    }
    return UINT64_MAX;
}

/* What is due of a line goes on, of all jobs; answers when the next one is. Its sockets are put behind the others. */
static uint64_t pass_line(struct relay *relay, int from, int to, uint64_t time, struct pollfd *came) {
    uint64_t next = UINT64_MAX;
    for (int job = 0; job < relay->jobs; job++) {
        struct way *way = &relay->lines[from][to].ways[job];
        uint64_t due = pass_on(way, relay->lines[to][from].ways[job].socket, time);
        if (due < next) next = due;
        came[job] = (struct pollfd){way->socket, POLLIN, 0};
    }
    return next;
}

/* One round over all lines: what is due goes on, and what comes is taken in. */
static void go_round(struct relay *relay) {
    struct pollfd came[MOST * MOST * MOST_JOBS];
    struct line *lines[MOST * MOST];
    uint64_t time = now(), next = time + 100000000u;
    nfds_t count = 0, jobs = (nfds_t)relay->jobs;
    for (int from = 0; from < relay->ranks; from++)
        for (int to = 0; to < relay->ranks; to++) {
            if (from == to) continue;
            uint64_t due = pass_line(relay, from, to, time, &came[count * jobs]);
            if (due < next) next = due;
            lines[count++] = &relay->lines[from][to];
        }
    struct timespec most = {0, (long)(next - time)};
    if (ppoll(came, count * jobs, &most, 0) <= 0) return;
    for (nfds_t it = 0; it < count * jobs; it++)
        if (came[it].revents) receive(relay, lines[it / jobs], &lines[it / jobs]->ways[it % jobs]);
}

/* Prints what was counted, job by job. */
static void tell(const struct relay *relay) {
    for (int job = 0; job < relay->jobs; job++) {
        const struct counts *counts = &relay->counts[job];
        printf("%llu %llu %llu %llu%c", counts->frames, counts->again, counts->lost, counts->full,
               job + 1 < relay->jobs ? ' ' : '\n');
    }
    fflush(stdout);
    is_asked = 0;
}

static void close_ways(struct relay *relay) {
    for (int job = 0; job < relay->jobs; job++)
        for (int from = 0; from < relay->ranks; from++)
            for (int to = 0; to < relay->ranks; to++) {
                struct way *way = &relay->lines[from][to].ways[job];
                if (from != to) close(way->socket), free(way->places);
            }
}

int main(int count, char **words) {
    static struct relay relay;
    if (count != 9) return 2;
    relay.jobs = atoi(words[1]);
    relay.ranks = atoi(words[2]);
    if (relay.jobs < 1 || relay.jobs > MOST_JOBS || relay.ranks < 2 || relay.ranks > MOST) return 2;
    relay.delay = strtoull(words[4], 0, 10) * 1000;
    relay.percent = atoi(words[5]);
    relay.rate = strtoull(words[6], 0, 10);
    relay.queue = strtoull(words[7], 0, 10);
    relay.drawn = strtoull(words[8], 0, 10) * 2 + 1;
    prctl(PR_SET_PDEATHSIG, SIGKILL);
    signal(SIGTERM, end);
    signal(SIGUSR1, ask);
    open_ways(&relay, atoi(words[3]));
    puts("ready");
    fflush(stdout);
    while (!is_over) {
        go_round(&relay);
        if (is_asked) tell(&relay);
    }
    tell(&relay);
    close_ways(&relay);
    return 0;
}
