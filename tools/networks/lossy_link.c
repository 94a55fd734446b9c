/* Stands between two ranks and loses datagrams at random.
 *
 *   lossy_link FIRST SECOND PERCENT SEED
 *
 * Rank 0 has the port FIRST and is told that rank 1 has FIRST + 1; rank 1 has the port SECOND and is told that rank
 * 0 has SECOND - 1. What comes to either of these two goes on to the other rank, but for so many of a hundred. It
 * ends when it is killed, or with its parent. */
#define _GNU_SOURCE
#include <arpa/inet.h>
#include <netinet/in.h>
#include <poll.h>
#include <signal.h>
#include <stdint.h>
#include <stdlib.h>
#include <sys/prctl.h>
#include <sys/socket.h>

enum { ROOM = 4 << 20 };

static struct sockaddr_in local(int port) {
    struct in_addr here = {htonl(INADDR_LOOPBACK)};
    return (struct sockaddr_in){.sin_family = AF_INET, .sin_port = htons(port), .sin_addr = here};
}

static int at(int port) {
    int made = socket(AF_INET, SOCK_DGRAM | SOCK_NONBLOCK, 0), room = ROOM;
    struct sockaddr_in address = local(port);
    setsockopt(made, SOL_SOCKET, SO_RCVBUFFORCE, &room, sizeof room);
    if (bind(made, (void *)&address, sizeof address)) exit(1);
    return made;
}

int main(int count, char **words) {
    if (count != 5) return 2;
    int first = atoi(words[1]), second = atoi(words[2]), percent = atoi(words[3]);
    uint64_t drawn = strtoull(words[4], 0, 10) * 2 + 1;
    prctl(PR_SET_PDEATHSIG, SIGKILL);
    struct pollfd came[2] = {{at(first + 1), POLLIN, 0}, {at(second - 1), POLLIN, 0}};
    struct sockaddr_in target[2] = {local(second), local(first)};
    static char bytes[1 << 16];
    for (;;) {
        poll(came, 2, -1);
        for (int side = 0; side < 2; side++) {
            ssize_t length = recv(came[side].fd, bytes, sizeof bytes, 0);
            if (length < 0) continue;
            drawn ^= drawn << 13, drawn ^= drawn >> 7, drawn ^= drawn << 17;
            if (drawn % 100 < (uint64_t)percent) continue;
            sendto(came[1 - side].fd, bytes, length, 0, (void *)&target[side], sizeof target[side]);
        }
    }
}
