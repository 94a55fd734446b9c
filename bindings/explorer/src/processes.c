/* The processes of the ranks: see shell.h. */
#define _GNU_SOURCE
#include "shell.h"

#include <errno.h>
#include <fcntl.h>
#include <poll.h>
#include <signal.h>
#include <spawn.h>
#include <stdlib.h>
#include <string.h>
#include <sys/mman.h>
#include <sys/socket.h>
#include <sys/stat.h>
#include <sys/syscall.h>
#include <sys/wait.h>
#include <unistd.h>

extern char **environ;

enum { RANK_SOCKET = 200, INPUT_ROOM = 1 << 16, WORDS_OF_PLACE = 9 };

static struct {
    pid_t pid;
    pid_t mould_pid; /* the process that is copied for each run, and its socket, or 0 */
    int mould;
    int socket, output, status;
    char *input; /* what came and isn't taken yet */
    size_t from, to;
} ranks[MOST_RANKS];

int status_of_rank(int rank) { return ranks[rank].status; }
int socket_of_rank(int rank) { return ranks[rank].socket; }
bool has_more(int rank) { return ranks[rank].from < ranks[rank].to; }

void close_socket(int rank) {
    if (ranks[rank].socket >= 0) close(ranks[rank].socket);
    ranks[rank].socket = -1;
}

/* ---- bytes ---- */

static bool get(int socket, void *into, size_t length) {
    for (char *at = into; length > 0;) {
        ssize_t done = recv(socket, at, length, 0);
        if (done < 0 && errno == EINTR) continue;
        if (done <= 0) return false;
        at += done, length -= (size_t)done;
    }
    return true;
}

bool put_out(int rank, const void *from, size_t length) {
    for (const char *at = from; length > 0;) {
        ssize_t done = send(ranks[rank].socket, at, length, MSG_NOSIGNAL);
        if (done < 0 && errno == EINTR) continue;
        if (done <= 0) return false;
        at += done, length -= (size_t)done;
    }
    return true;
}

/* Takes in what has come: false, nothing comes any more. */
static bool fill(int rank) {
    if (ranks[rank].input == NULL && (ranks[rank].input = malloc(INPUT_ROOM)) == NULL) return false;
    for (;;) {
        ssize_t done = recv(ranks[rank].socket, ranks[rank].input, INPUT_ROOM, 0);
        if (done < 0 && errno == EINTR) continue;
        ranks[rank].from = 0;
        ranks[rank].to = done > 0 ? (size_t)done : 0;
        return done > 0;
    }
}

bool take_in(int rank, void *into, size_t length) {
    for (char *at = into; length > 0;) {
        size_t there = ranks[rank].to - ranks[rank].from;
        if (there == 0 && length > INPUT_ROOM) return get(ranks[rank].socket, at, length);
        if (there == 0 && !fill(rank)) return false;
        there = ranks[rank].to - ranks[rank].from;
        size_t some = there < length ? there : length;
        memcpy(at, ranks[rank].input + ranks[rank].from, some);
        ranks[rank].from += some;
        at += some, length -= some;
    }
    return true;
}

/* ---- starting ---- */

/* The environment of a rank: it is told its place, and its explorer. The rows stay until the next call. */
static char **environment_of(int rank, bool leaves_early) {
    static char words[WORDS_OF_PLACE][48];
    static char **all;
    const char *places = set.places ? "KOMBAZILY_EXPLORER_PLACES=1" : "KOMBAZILY_EXPLORER_RUNS=1";
    int own = 0, count = 0;
    snprintf(words[own++], sizeof *words, "KOMBAZILY_RANK=%d", rank);
    snprintf(words[own++], sizeof *words, "KOMBAZILY_SIZE=%d", set.size);
    snprintf(words[own++], sizeof *words, "KOMBAZILY_INCARNATION=0");
    snprintf(words[own++], sizeof *words, "KOMBAZILY_JOB=1");
    snprintf(words[own++], sizeof *words, "KOMBAZILY_PORT=43000");
    snprintf(words[own++], sizeof *words, "KOMBAZILY_EXPLORER=%d", RANK_SOCKET);
    snprintf(words[own++], sizeof *words, "%s", places);
    if (leaves_early) snprintf(words[own++], sizeof *words, "KOMBAZILY_EXPLORER_LEAVES=1");
    if (set.forks) snprintf(words[own++], sizeof *words, "KOMBAZILY_EXPLORER_COPIES=1");
    while (environ[count] != NULL) count++;
    all = realloc(all, (size_t)(count + own + 1) * sizeof *all);
    if (all == NULL) fail(STATUS_START, "no memory", "");
    for (int i = 0; i < own; i++) all[i] = words[i];
    int end = own;
    for (int i = 0; i < count; i++)
        if (strncmp(environ[i], "KOMBAZILY_", 10) != 0) all[end++] = environ[i];
    all[end] = NULL;
    return all;
}

/* The words of a rank that is under gdb. */
static char **debugged_words(void) {
    enum { MOST_WORDS = 200, OWN_WORDS = 3 };
    static char *words[MOST_WORDS] = {"gdb", "-q", "--args"};
    for (int i = 0; i < MOST_WORDS - OWN_WORDS - 1 && set.program[i] != NULL; i++)
        words[OWN_WORDS + i] = set.program[i];
    return words;
}

/* Starts a process of this rank that has this end of a pair of sockets. */
static pid_t spawn_rank(int rank, int end, bool leaves_early) {
    posix_spawn_file_actions_t actions;
    bool is_debugged = rank == set.debugged;
    const char *input = rank == 0 && set.input != NULL ? set.input : "/dev/null";
    char **words = is_debugged ? debugged_words() : set.program;
    pid_t pid;
    posix_spawn_file_actions_init(&actions);
    if (!is_debugged) {
        posix_spawn_file_actions_addopen(&actions, STDIN_FILENO, input, O_RDONLY, 0);
        posix_spawn_file_actions_adddup2(&actions, ranks[rank].output, STDOUT_FILENO);
        posix_spawn_file_actions_adddup2(&actions, ranks[rank].output, STDERR_FILENO);
    }
    posix_spawn_file_actions_adddup2(&actions, end, RANK_SOCKET);
    int why = posix_spawnp(&pid, words[0], &actions, NULL, words, environment_of(rank, leaves_early));
    posix_spawn_file_actions_destroy(&actions);
    if (why != 0) {
        fprintf(stderr, "kombazily: %s: %s\n", words[0], strerror(why));
        close_moulds();
        exit(STATUS_START);
    }
    return pid;
}

static void open_pair(int pair[2]) {
    if (socketpair(AF_UNIX, SOCK_STREAM | SOCK_CLOEXEC, 0, pair) != 0)
        fail(STATUS_START, "no sockets: ", strerror(errno));
}

/* Hands the mould of a rank the two descriptors of a run: whether it took them. */
static bool hand_over(int rank, int end, bool leaves_early) {
    struct explorer_run run = {set.places, leaves_early};
    struct iovec part = {&run, sizeof run};
    union {
        char room[CMSG_SPACE(2 * sizeof(int))];
        struct cmsghdr aligned;
    } control = {{0}};
    const int both[2] = {end, ranks[rank].output};
    struct msghdr message = {
        .msg_iov = &part, .msg_iovlen = 1, .msg_control = control.room, .msg_controllen = sizeof control.room};
    struct cmsghdr *it = CMSG_FIRSTHDR(&message);
    it->cmsg_level = SOL_SOCKET;
    it->cmsg_type = SCM_RIGHTS;
    it->cmsg_len = CMSG_LEN(sizeof both);
    memcpy(CMSG_DATA(it), both, sizeof both);
    return sendmsg(ranks[rank].mould, &message, MSG_NOSIGNAL) == (ssize_t)sizeof run;
}

/* Has the mould of a rank make a copy of itself. Where a signal of the terminal's ended it there is none, and the run
 * is cut off. */
static void copy_mould(int rank, int end, bool leaves_early) {
    int pair[2];
    if (ranks[rank].mould == 0) {
        open_pair(pair);
        ranks[rank].mould_pid = spawn_rank(rank, pair[1], leaves_early);
        ranks[rank].mould = pair[0];
        close(pair[1]);
    }
    if (hand_over(rank, end, leaves_early) && get(ranks[rank].mould, &ranks[rank].pid, sizeof ranks[rank].pid)) return;
    ranks[rank].pid = 0;
    if (asked_to_stop != 0) return;
    size_t length;
    char *text = output_of(rank, &length);
    fwrite(text, 1, length, stderr);
    fail(STATUS_START, set.program[0],
         ": a rank ended before MPI_Init: it is no program of MPI, isn't linked with this library (by its mpicc), or "
         "ended by itself");
}

void start_rank(int rank, bool leaves_early) {
    int pair[2];
    ranks[rank].output = memfd_create("output", MFD_CLOEXEC);
    if (ranks[rank].output < 0) fail(STATUS_START, "no memory for output: ", strerror(errno));
    fcntl(ranks[rank].output, F_SETFL, O_APPEND);
    ranks[rank].from = ranks[rank].to = 0;
    open_pair(pair);
    ranks[rank].socket = pair[0];
    if (set.forks) copy_mould(rank, pair[1], leaves_early);
    else ranks[rank].pid = spawn_rank(rank, pair[1], leaves_early);
    close(pair[1]);
}

/* ---- ending ---- */

void close_moulds(void) {
    for (int rank = 0; rank < set.size; rank++) {
        if (ranks[rank].mould == 0) continue;
        close(ranks[rank].mould);
        while (waitpid(ranks[rank].mould_pid, NULL, 0) < 0 && errno == EINTR) {}
        ranks[rank].mould = 0;
    }
}

static int milliseconds(double seconds) { return (int)(seconds * 1000); }

/* A copy of a mould, which tells of its end. */
static bool end_copy(int rank, bool by_force) {
    struct pollfd told = {.fd = ranks[rank].mould, .events = POLLIN};
    bool by_itself = !by_force && poll(&told, 1, milliseconds(set.patience)) == 1;
    if (!by_itself && ranks[rank].pid > 0) kill(ranks[rank].pid, SIGKILL);
    if (!get(ranks[rank].mould, &ranks[rank].status, sizeof ranks[rank].status) && asked_to_stop == 0)
        fail(STATUS_START, "a rank's process is lost", "");
    return by_itself;
}

/* Whether a process ends by itself. */
static bool ends_by_itself(pid_t pid) {
    struct pollfd ended = {.fd = (int)syscall(SYS_pidfd_open, pid, 0), .events = POLLIN};
    if (ended.fd < 0) return false;
    bool has_ended = poll(&ended, 1, milliseconds(set.patience)) == 1;
    close(ended.fd);
    return has_ended;
}

bool end_rank(int rank, bool by_force) {
    if (ranks[rank].mould != 0) return end_copy(rank, by_force);
    bool by_itself = !by_force && ends_by_itself(ranks[rank].pid);
    if (!by_itself) kill(ranks[rank].pid, SIGKILL);
    while (waitpid(ranks[rank].pid, &ranks[rank].status, 0) < 0 && errno == EINTR) {}
    return by_itself;
}

/* ---- output ---- */

char *output_of(int rank, size_t *length) {
    struct stat state;
    size_t size = fstat(ranks[rank].output, &state) == 0 ? (size_t)state.st_size : 0;
    char *text = malloc(size + 1);
    if (text == NULL) fail(STATUS_START, "no memory for output", "");
    ssize_t done = pread(ranks[rank].output, text, size, 0);
    *length = done > 0 ? (size_t)done : 0;
    text[*length] = '\0';
    return text;
}

void close_outputs(void) {
    for (int rank = 0; rank < set.size; rank++) close(ranks[rank].output);
}
