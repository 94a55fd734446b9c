/* Counts what a rank hands to the system, by LD_PRELOAD: `sendmmsg` goes on as it is, and each of its datagrams is read
 * (docs/FORMAT.md). At the end of the process a file COUNTED_TO.PID has the numbers of frames that went the first time
 * and again, their bytes, the frames among them that have more than 512 bytes, the first time and again, and the
 * datagrams that the system didn't take. COUNTED_ROOM is the most that the system is asked to keep for a socket, as if
 * the process had no right to more: else it asks for what it will. */
#define _GNU_SOURCE
#include <dlfcn.h>
#include <errno.h>
#include <netinet/in.h>
#include <netinet/udp.h>
#include <stdint.h>
#include <stdio.h>
#include <stdlib.h>
#include <string.h>
#include <sys/socket.h>
#include <unistd.h>

enum { HEADER = 32, KIND = 5, TARGET = 8, JOB = 16, SEQUENCE = 24, FRAME = 1, SESSIONS = 1 << 14, LONG = 512 };

/* A direction of a session: by job and target, and the number behind the highest that went. */
struct session {
    uint64_t job, target, next;
};
static struct session sessions[SESSIONS];

static struct { unsigned long long frames, again, bytes, bytes_again, longer, longer_again, refused; } counts;

static uint64_t number_at(const unsigned char *bytes, int len) {
    uint64_t number = 0;
    for (int it = 0; it < len; it++) number = number << 8 | bytes[it];
    return number;
}

/* The session of a frame: its target is told by rank and incarnations, and is never 0. */
static struct session *session_of(const unsigned char *bytes) {
    const uint64_t job = number_at(bytes + JOB, 8), target = number_at(bytes + TARGET, 6) | UINT64_C(1) << 48;
    uint64_t at = (job * 31 + target) * UINT64_C(0x9e3779b97f4a7c15) >> 50;
    for (;; at = (at + 1) % SESSIONS) {
        struct session *it = &sessions[at];
        if (it->target == 0) *it = (struct session){job, target, 0};
        if (it->job == job && it->target == target) return it;
    }
}

static void count_datagram(const unsigned char *bytes, size_t len) {
    if (len < HEADER || bytes[KIND] != FRAME) return;
    struct session *own = session_of(bytes);
    const uint64_t number = number_at(bytes + SEQUENCE, 8);
    const int is_again = number < own->next;
    if (!is_again) own->next = number + 1;
    counts.frames += !is_again;
    counts.again += is_again;
    counts.bytes += is_again ? 0 : len;
    counts.bytes_again += is_again ? len : 0;
    counts.longer += !is_again && len > LONG;
    counts.longer_again += is_again && len > LONG;
}

/* How long each datagram of a message is that the system cuts. */
static size_t length_of_each(struct msghdr *message) {
    uint16_t each = 0;
    for (struct cmsghdr *it = CMSG_FIRSTHDR(message); it != NULL; it = CMSG_NXTHDR(message, it))
        if (it->cmsg_level == IPPROTO_UDP && it->cmsg_type == UDP_SEGMENT) memcpy(&each, CMSG_DATA(it), sizeof each);
    return each == 0 ? message->msg_iov->iov_len : each;
}

static void count_message(struct msghdr *message) {
    const size_t len = message->msg_iov->iov_len, each = length_of_each(message);
    for (size_t at = 0; at < len; at += each)
        count_datagram((unsigned char *)message->msg_iov->iov_base + at, len - at < each ? len - at : each);
}

int sendmmsg(int socket, struct mmsghdr *messages, unsigned count, int flags) {
    static int (*own)(int, struct mmsghdr *, unsigned, int);
    if (own == NULL) *(void **)&own = dlsym(RTLD_NEXT, "sendmmsg");
    const int sent = own(socket, messages, count, flags), why = errno;
    for (int it = 0; it < sent; it++) count_message(&messages[it].msg_hdr);
    if (sent < 0 && why != EINTR) {
        counts.refused++;
        count_message(&messages[0].msg_hdr);
    }
    errno = why;
    return sent;
}

int setsockopt(int socket, int level, int name, const void *value, socklen_t len) {
    static int (*own)(int, int, int, const void *, socklen_t);
    if (own == NULL) *(void **)&own = dlsym(RTLD_NEXT, "setsockopt");
    const char *told = getenv("COUNTED_ROOM");
    const int most = told == NULL ? 0 : atoi(told);
    if (most > 0 && level == SOL_SOCKET && (name == SO_RCVBUFFORCE || name == SO_SNDBUFFORCE)) {
        errno = EPERM;
        return -1;
    }
    if (most > 0 && level == SOL_SOCKET && (name == SO_RCVBUF || name == SO_SNDBUF) && *(const int *)value > most)
        return own(socket, level, name, &most, sizeof most);
    return own(socket, level, name, value, len);
}

__attribute__((destructor)) static void tell(void) {
    char name[512];
    const char *to = getenv("COUNTED_TO");
    if (to == NULL || counts.frames == 0) return;
    snprintf(name, sizeof name, "%s.%d", to, (int)getpid());
    FILE *out = fopen(name, "w");
    if (out == NULL) return;
    fprintf(out, "%llu %llu %llu %llu %llu %llu %llu\n", counts.frames, counts.again, counts.bytes, counts.bytes_again,
            counts.longer, counts.longer_again, counts.refused);
    fclose(out);
}
