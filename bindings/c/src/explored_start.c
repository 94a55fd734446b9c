/* How a rank under the explorer begins and ends: see explored.h. */
#define _GNU_SOURCE
#include "communicators.h"
#include "explored.h"
#include "place.h"
#include "types.h"

#include <errno.h>
#include <execinfo.h>
#include <link.h>
#include <stdio.h>
#include <stdlib.h>
#include <string.h>
#include <sys/socket.h>
#include <sys/wait.h>
#include <unistd.h>

/* The status of a rank that its explorer has left: nobody looks at it. */
enum { STATUS_LEFT = 125 };

static int explorer = -1;
static bool tells_places;
bool leaves_early;

int explored_socket(void) { return explorer; }

_Noreturn void explored_lose(void) { _exit(STATUS_LEFT); }

/* ---- places of calls ---- */

/* The parts of the program's own file in memory. */
static struct { uintptr_t base, from, to; } program_file;

static int note_program(struct dl_phdr_info *info, size_t size, void *nothing) {
    (void)size, (void)nothing;
    program_file.base = info->dlpi_addr;
    program_file.from = UINTPTR_MAX;
    for (int i = 0; i < info->dlpi_phnum; i++) {
        const ElfW(Phdr) *part = &info->dlpi_phdr[i];
        uintptr_t from = info->dlpi_addr + part->p_vaddr;
        if (part->p_type != PT_LOAD) continue;
        if (from < program_file.from) program_file.from = from;
        if (from + part->p_memsz > program_file.to) program_file.to = from + part->p_memsz;
    }
    return 1; /* the program itself comes first */
}

void explored_want_places(void) { tells_places = true; }

uint32_t explored_frames(uint64_t frames[EXPLORER_FRAMES]) {
    void *all[EXPLORER_FRAMES];
    uint32_t count = 0;
    int found = tells_places ? backtrace(all, EXPLORER_FRAMES) : 0;
    if (program_file.to == 0) dl_iterate_phdr(note_program, NULL);
    for (int i = 0; i < found; i++) {
        uintptr_t at = (uintptr_t)all[i];
        if (at >= program_file.from && at < program_file.to) frames[count++] = at - program_file.base;
    }
    return count;
}

/* ---- a process that is copied for each run ---- */

static void exchange(void *bytes, size_t len, bool is_put) {
    for (char *at = bytes; len > 0;) {
        ssize_t done = is_put ? send(explorer, at, len, MSG_NOSIGNAL) : recv(explorer, at, len, 0);
        if (done < 0 && errno == EINTR) continue;
        if (done <= 0) explored_lose();
        at += done, len -= (size_t)done;
    }
}

/* What the explorer hands over for one run: its socket, and where the output goes. */
static bool take_run(int descriptors[2]) {
    struct explorer_run run;
    struct iovec part = {&run, sizeof run};
    union {
        char room[CMSG_SPACE(2 * sizeof(int))];
        struct cmsghdr aligned;
    } control;
    struct msghdr message = {
        .msg_iov = &part, .msg_iovlen = 1, .msg_control = control.room, .msg_controllen = sizeof control.room};
    if (recvmsg(explorer, &message, MSG_CMSG_CLOEXEC) != (ssize_t)sizeof run) return false;
    const struct cmsghdr *it = CMSG_FIRSTHDR(&message);
    if (it == NULL || it->cmsg_type != SCM_RIGHTS || it->cmsg_len != CMSG_LEN(2 * sizeof(int))) return false;
    memcpy(descriptors, CMSG_DATA(it), 2 * sizeof(int));
    tells_places = run.tells_places != 0;
    leaves_early = run.leaves_early != 0;
    return true;
}

/* In the copy: its run begins. */
static void begin_run(const int descriptors[2]) {
    dup2(descriptors[1], STDOUT_FILENO);
    dup2(descriptors[1], STDERR_FILENO);
    close(descriptors[1]);
    close(explorer);
    explorer = descriptors[0];
}

/* From here on the process makes a copy of itself for each run, which goes on with the program, and tells how it ends.
 */
static void be_mould(void) {
    int descriptors[2], status;
    fflush(NULL);
    while (take_run(descriptors)) {
        pid_t copy = fork();
        if (copy == 0) {
            begin_run(descriptors);
            return;
        }
        close(descriptors[0]);
        close(descriptors[1]);
        if (copy < 0) explored_lose();
        exchange(&copy, sizeof copy, true);
        while (waitpid(copy, &status, 0) < 0 && errno == EINTR) {}
        exchange(&status, sizeof status, true);
    }
    _exit(0);
}

/* ---- the beginning and the end ---- */

/* Ends a process that no explorer has started. */
static _Noreturn void refuse_explorer(const char *where) {
    fflush(stdout);
    fprintf(stderr, "MPI_Init: its place is told wrongly: KOMBAZILY_EXPLORER=%s is no socket of an explorer\n", where);
    explored_lose();
}

static bool is_socket(int descriptor) {
    int type;
    socklen_t len = sizeof type;
    return getsockopt(descriptor, SOL_SOCKET, SO_TYPE, &type, &len) == 0;
}

bool explored_open(void) {
    const char *where = getenv("KOMBAZILY_EXPLORER");
    uint64_t number;
    if (where == NULL || !read_number(where, 1023, &number)) return false;
    explorer = (int)number;
    if (!is_socket(explorer)) refuse_explorer(where);
    tells_places = getenv("KOMBAZILY_EXPLORER_PLACES") != NULL;
    leaves_early = getenv("KOMBAZILY_EXPLORER_LEAVES") != NULL;
    if (getenv("KOMBAZILY_EXPLORER_COPIES") != NULL) be_mould();
    is_explored = true;
    explored_start();
    return true;
}

/* So many of a kind are told of what is left. */
enum { MOST_LEFT = 64 };

/* What is told of what is left, beside requests. */
static struct {
    struct explorer_left left;
    uint32_t numbers[3 * MOST_LEFT];
} rest;

static void note_communicator(const struct communicator *it) {
    if (it->place > ENGINE_SELF && it->place != ENGINE_NO_COMMUNICATOR && rest.left.communicators < MOST_LEFT)
        rest.numbers[rest.left.communicators++] = it->place;
}

/* So many numbers stand there. */
static uint32_t note_left(void) {
    rest.left = (struct explorer_left){.messages = count_messages()};
    each_communicator(note_communicator);
    uint32_t count = rest.left.communicators;
    const uint32_t types = types_left(rest.numbers + count, MOST_LEFT);
    rest.left.types = types < MOST_LEFT ? types : MOST_LEFT;
    count += rest.left.types;
    const uint32_t persistent = persistent_left(rest.numbers + count, MOST_LEFT);
    rest.left.persistent = persistent < MOST_LEFT ? persistent : MOST_LEFT;
    return count + rest.left.persistent;
}

void explored_finalize(void) {
    struct explorer_ask ask = {.kind = ASK_FINALIZE};
    struct explorer_entry *requests = explored_left(&ask.count);
    ask.length = sizeof rest.left + note_left() * sizeof *rest.numbers;
    (void)explored_ask(&ask, requests, &rest, NULL);
    free(requests);
    close(explorer);
    explorer = -1;
}
