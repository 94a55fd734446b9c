/* The device: one UDP socket and the clock. See device.h. */
#define _GNU_SOURCE
#include "device.h"

#include <arpa/inet.h>
#include <errno.h>
#include <ifaddrs.h>
#include <net/if.h>
#include <netinet/in.h>
#include <netinet/udp.h>
#include <poll.h>
#include <sched.h>
#include <stdio.h>
#include <string.h>
#include <sys/eventfd.h>
#include <sys/resource.h>
#include <sys/socket.h>
#include <time.h>
#include <unistd.h>

#ifndef UDP_SEGMENT
#define UDP_SEGMENT 103
#endif
#ifndef UDP_GRO
#define UDP_GRO 104
#endif

enum {
    SOCKET_ROOM = 16 << 20,   /* bytes that the system is asked to keep for a socket in each direction */
    MOST_TOGETHER = 60,       /* datagrams that the system is handed as one: it takes no more than 64 */
    LONGEST_TOGETHER = 65507, /* and their bytes: an IP packet has no more than 65,535 */
    LEAST_ROOM = 65507,       /* the longest datagram that UDP takes */
    OUT_ROOM = 2 * LONGEST_TOGETHER,
    MOST_GROUPS = 32, /* of datagrams that are handed over in one call */
    MOST_HEARD = 8,   /* packets that are taken in one call */
    HEARD_ROOM = 1 << 16
};

/* Datagrams to one rank that stand in a row, all of one length; the last may be shorter. */
struct group {
    uint16_t target, each;
    uint32_t count;
    unsigned char *bytes;
    size_t len;
};

/* Room for one control message with a number. */
union control {
    char room[CMSG_SPACE(sizeof(int))];
    struct cmsghdr aligned;
};

static int own_socket = -1, bell = -1, error_of_socket;
static const struct addresses *addresses;
static bool can_segment;

static unsigned char out_room[OUT_ROOM];
static size_t out_len;
static struct group groups[MOST_GROUPS];
static int group_count;

static unsigned char heard_room[MOST_HEARD][HEARD_ROOM];
static struct mmsghdr heard[MOST_HEARD];
static struct iovec heard_parts[MOST_HEARD];
static struct sockaddr_in heard_from[MOST_HEARD];
static union control heard_controls[MOST_HEARD];

static struct sockaddr_in address_of(int rank) {
    return (struct sockaddr_in){.sin_family = AF_INET,
                                .sin_port = htons(port_at(addresses, rank)),
                                .sin_addr.s_addr = htonl(addresses->of_rank[rank])};
}

/* Asks for large rooms, and for datagrams that are cut and joined by the system where it can. */
static void set_options(void) {
    int room = SOCKET_ROOM, on = 1, none = 0;
    if (setsockopt(own_socket, SOL_SOCKET, SO_RCVBUFFORCE, &room, sizeof room) != 0)
        (void)setsockopt(own_socket, SOL_SOCKET, SO_RCVBUF, &room, sizeof room);
    if (setsockopt(own_socket, SOL_SOCKET, SO_SNDBUFFORCE, &room, sizeof room) != 0)
        (void)setsockopt(own_socket, SOL_SOCKET, SO_SNDBUF, &room, sizeof room);
    can_segment = setsockopt(own_socket, IPPROTO_UDP, UDP_SEGMENT, &none, sizeof none) == 0;
    (void)setsockopt(own_socket, IPPROTO_UDP, UDP_GRO, &on, sizeof on);
}

bool device_own_address(uint32_t towards, uint32_t *address) {
    struct sockaddr_in to = {.sin_family = AF_INET, .sin_port = htons(9), .sin_addr.s_addr = htonl(towards)};
    struct sockaddr_in own;
    socklen_t len = sizeof own;
    int tried = socket(AF_INET, SOCK_DGRAM | SOCK_CLOEXEC, 0);
    if (tried < 0) return false;
    bool leads = connect(tried, (struct sockaddr *)&to, sizeof to) == 0 &&
                 getsockname(tried, (struct sockaddr *)&own, &len) == 0;
    int why = errno;
    close(tried);
    errno = why;
    if (leads) *address = ntohl(own.sin_addr.s_addr);
    return leads;
}

uint32_t device_any_address(void) {
    struct ifaddrs *all;
    struct sockaddr_in own = {.sin_addr.s_addr = htonl(LOOPBACK)};
    if (getifaddrs(&all) != 0) return LOOPBACK;
    for (const struct ifaddrs *it = all; it != NULL && own.sin_family != AF_INET; it = it->ifa_next) {
        bool is_outer = (it->ifa_flags & IFF_UP) != 0 && (it->ifa_flags & IFF_LOOPBACK) == 0;
        if (is_outer && it->ifa_addr != NULL && it->ifa_addr->sa_family == AF_INET)
            memcpy(&own, it->ifa_addr, sizeof own);
    }
    freeifaddrs(all);
    return ntohl(own.sin_addr.s_addr);
}

/* Binds the socket to a port, or to any where it is 0: whether it could. */
static bool bind_at(uint32_t address, uint16_t port) {
    struct sockaddr_in own = {.sin_family = AF_INET, .sin_port = htons(port), .sin_addr.s_addr = htonl(address)};
    return bind(own_socket, (struct sockaddr *)&own, sizeof own) == 0;
}

bool device_claim(uint32_t address, uint16_t first, uint16_t last, int rank, uint16_t *port) {
    struct sockaddr_in own;
    socklen_t len = sizeof own;
    int count = last - first + 1;
    bool is_bound = false;
    own_socket = socket(AF_INET, SOCK_DGRAM | SOCK_NONBLOCK | SOCK_CLOEXEC, 0);
    if (own_socket < 0) return false;
    for (int at = 0; at < count && !is_bound; at++)
        is_bound = bind_at(address, (uint16_t)(first + (rank + at) % count));
    if (is_bound && getsockname(own_socket, (struct sockaddr *)&own, &len) == 0) {
        *port = ntohs(own.sin_port);
        return true;
    }
    int why = errno;
    device_close();
    errno = why;
    return false;
}

bool device_open(int rank, const struct addresses *job) {
    addresses = job;
    error_of_socket = 0;
    if (device_is_open()) {
        set_options();
        return true;
    }
    own_socket = socket(AF_INET, SOCK_DGRAM | SOCK_NONBLOCK | SOCK_CLOEXEC, 0);
    if (own_socket < 0) return false;
    struct sockaddr_in own = address_of(rank);
    if (bind(own_socket, (struct sockaddr *)&own, sizeof own) != 0) {
        int why = errno;
        device_close();
        errno = why;
        return false;
    }
    set_options();
    return true;
}

void device_close(void) {
    if (own_socket >= 0) close(own_socket);
    if (bell >= 0) close(bell);
    own_socket = bell = -1;
    out_len = 0;
    group_count = 0;
}

bool device_is_open(void) { return own_socket >= 0; }

unsigned char *device_room(size_t *len) {
    if (group_count == MOST_GROUPS || out_len + LEAST_ROOM > OUT_ROOM) device_flush(1);
    *len = OUT_ROOM - out_len < LONGEST_TOGETHER ? OUT_ROOM - out_len : LONGEST_TOGETHER;
    return out_room + out_len;
}

uint32_t device_most(void) { return can_segment ? MOST_TOGETHER : 1; }

void device_put(uint16_t target, uint32_t count, uint32_t each, size_t len) {
    groups[group_count++] = (struct group){
        .target = target, .each = (uint16_t)each, .count = count, .bytes = out_room + out_len, .len = len};
    out_len += len;
}

/* The message by which the system is handed a group. */
static void describe(const struct group *group, struct msghdr *message, struct sockaddr_in *to, struct iovec *part,
                     union control *control) {
    *to = address_of(group->target);
    *part = (struct iovec){group->bytes, group->len};
    *message = (struct msghdr){.msg_name = to, .msg_namelen = sizeof *to, .msg_iov = part, .msg_iovlen = 1};
    if (group->count == 1) return;
    memset(control, 0, sizeof *control);
    message->msg_control = control->room;
    message->msg_controllen = CMSG_SPACE(sizeof(uint16_t));
    struct cmsghdr *length = CMSG_FIRSTHDR(message);
    length->cmsg_level = IPPROTO_UDP;
    length->cmsg_type = UDP_SEGMENT;
    length->cmsg_len = CMSG_LEN(sizeof(uint16_t));
    memcpy(CMSG_DATA(length), &group->each, sizeof group->each);
}

/* Whether an error is one by which a system or a network says that it can't take a datagram now. */
static bool is_loss(int error) {
    static const int losses[] = {EAGAIN,   EWOULDBLOCK, ENOBUFS,      ENOMEM, ENETUNREACH,  EHOSTUNREACH,
                                 ENETDOWN, EHOSTDOWN,   ECONNREFUSED, EPERM,  EADDRNOTAVAIL};
    for (size_t at = 0; at < sizeof losses / sizeof *losses; at++)
        if (losses[at] == error) return true;
    return false;
}

/* Notes why the system didn't take a group. What is lost goes out again, as any datagram that is. */
static void note_error(const struct group *group, int error) {
    if (group->count > 1 && (error == EINVAL || error == EIO || error == EMSGSIZE)) can_segment = false;
    else if (!is_loss(error)) error_of_socket = error;
}

/* Hands so many messages to the system. */
static void hand_over(struct mmsghdr *messages, int count) {
    for (int at = 0; at < count;) {
        int sent = sendmmsg(own_socket, messages + at, (unsigned)(count - at), 0);
        if (sent > 0) at += sent;
        else if (errno != EINTR) note_error(&groups[at++], errno);
    }
}

int device_error(void) { return error_of_socket; }

void device_flush(int copies) {
    static struct mmsghdr messages[MOST_GROUPS];
    static struct sockaddr_in targets[MOST_GROUPS];
    static struct iovec parts[MOST_GROUPS];
    static union control controls[MOST_GROUPS];
    for (int i = 0; i < group_count; i++)
        describe(&groups[i], &messages[i].msg_hdr, &targets[i], &parts[i], &controls[i]);
    for (int copy = 0; copy < copies; copy++) hand_over(messages, group_count);
    group_count = 0;
    out_len = 0;
}

/* The length of the datagrams that the system joined to a packet of so many bytes. */
static size_t length_of_each(struct msghdr *message, size_t len) {
    for (struct cmsghdr *it = CMSG_FIRSTHDR(message); it != NULL; it = CMSG_NXTHDR(message, it)) {
        if (it->cmsg_level != IPPROTO_UDP || it->cmsg_type != UDP_GRO) continue;
        int each = 0;
        memcpy(&each, CMSG_DATA(it), sizeof each);
        if (each > 0) return (size_t)each;
    }
    return len;
}

/* Room for so many packets. */
static void clear_heard(int count) {
    for (int i = 0; i < count; i++) {
        heard_parts[i] = (struct iovec){heard_room[i], HEARD_ROOM};
        heard[i].msg_hdr = (struct msghdr){.msg_name = &heard_from[i],
                                           .msg_namelen = sizeof heard_from[i],
                                           .msg_iov = &heard_parts[i],
                                           .msg_iovlen = 1,
                                           .msg_control = heard_controls[i].room,
                                           .msg_controllen = sizeof heard_controls[i].room};
    }
}

/* Hands over a packet: whether any of it was taken. */
static bool hand_on(device_hearer *hearer, int packet) {
    const struct sockaddr_in *from = &heard_from[packet];
    size_t len = heard[packet].msg_len;
    return hearer(ntohl(from->sin_addr.s_addr), ntohs(from->sin_port), heard_room[packet], len,
                  length_of_each(&heard[packet].msg_hdr, len));
}

bool device_is_at(int rank, uint32_t address, uint16_t port) { return is_at(addresses, rank, address, port); }

const struct addresses *device_ranks(void) { return addresses; }

bool device_is_held(int rank) {
    char line[512];
    unsigned address, port, user;
    bool is_held = false;
    const struct sockaddr_in wanted = address_of(rank);
    FILE *list = fopen("/proc/net/udp", "r");
    while (list != NULL && !is_held && fgets(line, sizeof line, list) != NULL)
        is_held = sscanf(line, " %*d: %x:%x %*x:%*x %*x %*x:%*x %*x:%*x %*x %u", &address, &port, &user) == 3 &&
                  address == wanted.sin_addr.s_addr && port == ntohs(wanted.sin_port) && user == geteuid();
    if (list != NULL) fclose(list);
    return is_held;
}

bool device_knows(uint32_t address, uint16_t port) { return is_of_some(addresses, address, port); }

bool device_hear(device_hearer *hearer) {
    /* Mostly one packet comes at a time: it is looked for more where there was as much as was looked for. */
    static int wanted = 1;
    clear_heard(wanted);
    int count = recvmmsg(own_socket, heard, (unsigned)wanted, MSG_DONTWAIT, NULL);
    wanted = count == wanted ? MOST_HEARD : 1;
    bool has_come = false;
    for (int i = 0; i < count; i++) has_come |= hand_on(hearer, i);
    return has_come;
}

void device_sleep(int milliseconds) {
    struct pollfd came = {.fd = own_socket, .events = POLLIN};
    (void)poll(&came, own_socket >= 0, milliseconds);
}

void device_open_bell(void) {
    if (bell < 0) bell = eventfd(0, EFD_NONBLOCK | EFD_CLOEXEC);
}

void device_ring(void) {
    const uint64_t once = 1;
    if (write(bell, &once, sizeof once) != sizeof once) return; /* it rings already */
}

void device_await(long spin, int milliseconds) {
    struct pollfd both[] = {{.fd = bell, .events = POLLIN}, {.fd = own_socket, .events = POLLIN}};
    const nfds_t count = own_socket >= 0 ? 2 : 1;
    const uint64_t until = device_nanoseconds() + (uint64_t)spin;
    uint64_t rung;
    int found;
    while ((found = poll(both, count, 0)) == 0 && device_nanoseconds() < until) continue;
    if (found == 0) (void)poll(both, count, milliseconds);
    if (read(bell, &rung, sizeof rung) != sizeof rung) return; /* it didn't ring */
}

uint64_t device_nanoseconds(void) {
    struct timespec time;
    clock_gettime(CLOCK_MONOTONIC, &time);
    return (uint64_t)time.tv_sec * 1000000000u + (uint64_t)time.tv_nsec;
}

uint32_t device_heard_room(void) {
    int room = 0;
    socklen_t len = sizeof room;
    if (own_socket < 0 || getsockopt(own_socket, SOL_SOCKET, SO_RCVBUF, &room, &len) != 0 || room < 0) return 0;
    return (uint32_t)room / 2; /* the system counts as much again for what it keeps beside the bytes */
}

int device_processors(void) {
    cpu_set_t set;
    if (sched_getaffinity(0, sizeof set, &set) != 0) return 1;
    int count = CPU_COUNT(&set);
    return count > 0 ? count : 1;
}

bool device_was_preempted(void) {
    static long before;
    struct rusage usage;
    if (getrusage(RUSAGE_THREAD, &usage) != 0) return false;
    bool was = usage.ru_nivcsw != before;
    before = usage.ru_nivcsw;
    return was;
}
