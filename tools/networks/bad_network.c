/* Stands between the ranks of a job as a network that misbehaves: it loses, repeats, delays and so reorders
 * datagrams, at random.
 *
 *   bad_network SIZE FIRST STRIDE LOST REPEATED DELAY SEED
 *
 * Rank r is told that rank s has the port FIRST + r * STRIDE + s, for each s; its own port is that of s = r. All
 * others of these ports are taken here: what comes to the one that r has for s goes on to s, out of the one that s
 * has for r. So many of a hundred are LOST, and so many REPEATED; each that goes on waits from 0 to DELAY
 * milliseconds. It says 'ready' once all ports are taken, and ends with its parent. */
#define _GNU_SOURCE
#include <arpa/inet.h>
#include <netinet/in.h>
#include <poll.h>
#include <signal.h>
#include <stdint.h>
#include <stdio.h>
#include <stdlib.h>
#include <string.h>
#include <sys/prctl.h>
#include <sys/socket.h>
#include <time.h>

enum { MOST = 32, ROOM = 8 << 20, LONGEST = 1 << 16, WAITING = 1 << 13 };

struct Datagram {
    int64_t due; /* in microseconds */
    uint64_t number;
    int from, to, length;
    char bytes[LONGEST];
};

static struct Datagram *waiting[WAITING]; /* a heap: the first is due first */
static int count;
static int size, first, stride;
static uint64_t drawn;
static int sockets[MOST][MOST];

static unsigned below(unsigned bound) {
    drawn ^= drawn << 13, drawn ^= drawn >> 7, drawn ^= drawn << 17;
    return drawn % bound;
}

static int64_t now(void) {
    struct timespec it;
    clock_gettime(CLOCK_MONOTONIC, &it);
    return it.tv_sec * 1000000LL + it.tv_nsec / 1000;
}

static struct sockaddr_in port(int rank, int other) {
    return (struct sockaddr_in){
        .sin_family = AF_INET,
        .sin_port = htons(first + rank * stride + other),
        .sin_addr.s_addr = htonl(INADDR_LOOPBACK)};
}

static int is_before(const struct Datagram *one, const struct Datagram *other) {
    return one->due != other->due ? one->due < other->due : one->number < other->number;
}

static void swap(int one, int other) {
    struct Datagram *kept = waiting[one];
    waiting[one] = waiting[other], waiting[other] = kept;
}

static void put(int from, int to, const char *bytes, int length, int64_t due) {
    static uint64_t numbers;
    if (count == WAITING) return; /* lost */
    struct Datagram *it = malloc(sizeof *it);
    *it = (struct Datagram){.due = due, .number = numbers++, .from = from, .to = to, .length = length};
    memcpy(it->bytes, bytes, length);
    int place = count++;
    waiting[place] = it;
    for (; place && is_before(waiting[place], waiting[(place - 1) / 2]); place = (place - 1) / 2) {
        swap(place, (place - 1) / 2);
    }
}

static struct Datagram *take(void) {
    struct Datagram *it = waiting[0];
    waiting[0] = waiting[--count];
    for (int place = 0, next; (next = 2 * place + 1) < count; place = next) {
        if (next + 1 < count && is_before(waiting[next + 1], waiting[next])) next++;
        if (!is_before(waiting[next], waiting[place])) break;
        swap(place, next);
    }
    return it;
}

int main(int words, char **word) {
    if (words != 8) return 2;
    size = atoi(word[1]), first = atoi(word[2]), stride = atoi(word[3]);
    unsigned lost = atoi(word[4]), repeated = atoi(word[5]), delay = atoi(word[6]) * 1000;
    drawn = strtoull(word[7], 0, 10) * 2 + 1;
    if (size < 1 || size > MOST) return 2;
    prctl(PR_SET_PDEATHSIG, SIGKILL);
    struct pollfd came[MOST * MOST];
    int pairs = 0, from[MOST * MOST], to[MOST * MOST];
    for (int rank = 0; rank < size; rank++)
        for (int other = 0; other < size; other++) {
            if (rank == other) continue;
            int made = socket(AF_INET, SOCK_DGRAM | SOCK_NONBLOCK, 0), room = ROOM;
            struct sockaddr_in own = port(rank, other);
            setsockopt(made, SOL_SOCKET, SO_RCVBUFFORCE, &room, sizeof room);
            if (bind(made, (void *)&own, sizeof own)) return 1;
            sockets[rank][other] = made, from[pairs] = rank, to[pairs] = other;
            came[pairs++] = (struct pollfd){made, POLLIN, 0};
        }
    puts("ready");
    fflush(stdout);
    static char bytes[LONGEST];
    for (;;) {
        int64_t time = now(), wait = count ? (waiting[0]->due - time + 999) / 1000 : -1;
        poll(came, pairs, count && wait < 0 ? 0 : (int)wait);
        for (int pair = 0; pair < pairs; pair++) {
            if (!(came[pair].revents & POLLIN)) continue;
            for (ssize_t length; (length = recv(came[pair].fd, bytes, sizeof bytes, 0)) >= 0;) {
                if (below(100) < lost) continue;
                for (int copies = below(100) < repeated ? 2 : 1; copies; copies--)
                    put(from[pair], to[pair], bytes, length, now() + (delay ? below(delay) : 0));
            }
        }
        for (time = now(); count && waiting[0]->due <= time;) {
            struct Datagram *it = take();
            struct sockaddr_in target = port(it->to, it->to);
            sendto(sockets[it->to][it->from], it->bytes, it->length, 0, (void *)&target, sizeof target);
            free(it);
        }
    }
}
