/* Joins the ends of virtual cables as a switch that loses datagrams at random: what comes to one of these interfaces
 * goes out of all others, but for so many of a hundred of the UDP datagrams.
 *
 *   lossy_bridge PERCENT SEED INTERFACE INTERFACE ..
 *
 * It says 'ready' once it is, and ends when it is killed, or with its parent. */
#define _GNU_SOURCE
#include <arpa/inet.h>
#include <linux/if_ether.h>
#include <linux/if_packet.h>
#include <net/if.h>
#include <poll.h>
#include <signal.h>
#include <stdint.h>
#include <stdio.h>
#include <stdlib.h>
#include <string.h>
#include <sys/prctl.h>
#include <sys/socket.h>

enum { MOST = 16, LONGEST = 1 << 16, ROOM = 16 << 20, ETHERNET = 14, OFFSET = 20, PROTOCOL = 23, UDP = 17, CHECKSUM = 40 };

/* A socket at all frames that come to an interface. */
static int at(const char *name) {
    int made = socket(AF_PACKET, SOCK_RAW, htons(ETH_P_ALL)), room = ROOM, yes = 1;
    struct sockaddr_ll address = {
        .sll_family = AF_PACKET, .sll_protocol = htons(ETH_P_ALL), .sll_ifindex = (int)if_nametoindex(name)};
    if (address.sll_ifindex == 0 || bind(made, (void *)&address, sizeof address)) {
        perror(name);
        exit(1);
    }
    setsockopt(made, SOL_SOCKET, SO_RCVBUFFORCE, &room, sizeof room);
    setsockopt(made, SOL_PACKET, PACKET_IGNORE_OUTGOING, &yes, sizeof yes);
    return made;
}

/* Whether a frame is a UDP datagram over IPv4, or the first fragment of one. */
static int is_datagram(const unsigned char *frame, ssize_t length) {
    if (length <= CHECKSUM + 1) return 0;
    if ((frame[OFFSET] & 0x1f) != 0 || frame[OFFSET + 1] != 0) return 0;
    return frame[12] == 0x08 && frame[13] == 0x00 && frame[ETHERNET] == 0x45 && frame[PROTOCOL] == UDP;
}

/* Passes the next frame of one interface on to the others, or loses it. */
static void pass_on(struct pollfd *ends, int count, int from, int percent, uint64_t *drawn) {
    static unsigned char frame[LONGEST];
    ssize_t length = recv(ends[from].fd, frame, sizeof frame, MSG_DONTWAIT);
    if (length <= 0) return;
    if (is_datagram(frame, length)) {
        *drawn ^= *drawn << 13, *drawn ^= *drawn >> 7, *drawn ^= *drawn << 17;
        if (*drawn % 100 < (uint64_t)percent) return;
        frame[CHECKSUM] = frame[CHECKSUM + 1] = 0; /* the sender left the sum to a card, and there is none */
    }
    for (int to = 0; to < count; to++)
        if (to != from && send(ends[to].fd, frame, (size_t)length, 0) < 0) continue;
}

int main(int count, char **words) {
    if (count < 5 || count > MOST + 3) return 2;
    int percent = atoi(words[1]), ends = count - 3;
    uint64_t drawn = strtoull(words[2], 0, 10) * 2 + 1;
    struct pollfd all[MOST];
    prctl(PR_SET_PDEATHSIG, SIGKILL);
    for (int it = 0; it < ends; it++) all[it] = (struct pollfd){at(words[3 + it]), POLLIN, 0};
    puts("ready");
    fflush(stdout);
    for (;;) {
        poll(all, (nfds_t)ends, -1);
        for (int it = 0; it < ends; it++)
            if (all[it].revents) pass_on(all, ends, it, percent, &drawn);
    }
}
