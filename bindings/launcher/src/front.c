/* The process that a user starts as mpirun. It starts the launcher, a program that can't catch signals, and outlives
 * those that ask for the job's end: it hands on each as a byte, and ends once the launcher has ended. How a job ends is
 * the launcher's to decide. */
#define _GNU_SOURCE
#include <errno.h>
#include <fcntl.h>
#include <limits.h>
#include <signal.h>
#include <stdio.h>
#include <stdlib.h>
#include <string.h>
#include <sys/wait.h>
#include <time.h>
#include <unistd.h>

/* Where the launcher stands, from the folder of this program on. */
#define LAUNCHER "../lib/kombazily/mpirun"

enum {
    FAILED = 3,        /* the status where there is no launcher, or it was killed */
    INTERRUPTED = 130, /* the launcher's status where the user asked for the end */
    LONGEST = 10       /* so many seconds behind the first signal a launcher that hasn't ended is killed */
};

/* Signals that ask for the end of a job; a terminal sends all but SIGTERM to all its processes. */
static const int ENDS[] = {SIGINT, SIGTERM, SIGHUP, SIGQUIT};
enum { END_COUNT = sizeof ENDS / sizeof ENDS[0] };

/* What is known of a job. */
typedef struct {
    pid_t front, launcher; /* this process, and the one that it starts */
    int wire;              /* where bytes for the launcher go */
    int first;             /* the first signal that asked for the end, or 0 */
    struct timespec asked; /* when it came */
} Job;

static void say(const char *text, const char *detail) { fprintf(stderr, "mpirun: %s%s\n", text, detail); }

/* Closed standard streams are /dev/null, so that no other file gets their numbers. */
static void open_standard_streams(void) {
    for (int fd = 0; fd <= 2; fd++)
        if (fcntl(fd, F_GETFD) < 0) (void)!open("/dev/null", O_RDWR);
}

/* The signals that this process waits for: those that ask for the end, but for ignored ones, and that a child ended. */
static sigset_t awaited_signals(void) {
    sigset_t awaited;
    sigemptyset(&awaited);
    sigaddset(&awaited, SIGCHLD);
    for (int it = 0; it < END_COUNT; it++) {
        struct sigaction now;
        if (sigaction(ENDS[it], NULL, &now) == 0 && now.sa_handler != SIG_IGN) sigaddset(&awaited, ENDS[it]);
    }
    return awaited;
}

/* The launcher's file; empty where it can't be told. */
static void find_launcher(char *file, size_t room) {
    ssize_t length = readlink("/proc/self/exe", file, room - sizeof LAUNCHER);
    file[length > 0 ? length : 0] = '\0';
    char *folder = strrchr(file, '/');
    if (folder) strcpy(folder + 1, LAUNCHER);
}

/* Becomes the launcher of these words. It ignores what a terminal sends to all its processes, and so do its ranks; what
 * is sent to it by its name waits for ever. */
static _Noreturn void become_launcher(pid_t parent, int wire, int count, char **words, const sigset_t *before) {
    char file[PATH_MAX], front[16], end[16], **given = calloc((size_t)count + 4, sizeof *given);
    sigset_t mask = *before;
    sigaddset(&mask, SIGTERM);
    signal(SIGINT, SIG_IGN);
    signal(SIGQUIT, SIG_IGN);
    signal(SIGHUP, SIG_IGN);
    sigprocmask(SIG_SETMASK, &mask, NULL);
    find_launcher(file, sizeof file);
    snprintf(front, sizeof front, "%d", (int)parent);
    snprintf(end, sizeof end, "%d", wire);
    if (given && fcntl(wire, F_SETFD, 0) == 0) {
        char *own[] = {words[0], "-led", front, end};
        memcpy(given, own, sizeof own);
        memcpy(given + 4, words + 1, (size_t)(count - 1) * sizeof *given);
        execv(file, given);
    }
    fprintf(stderr, "mpirun: its launcher %s can't be started: %s\n", file, strerror(errno));
    _exit(FAILED);
}

/* How long a launcher has that was asked for the end. */
static struct timespec time_left(const Job *job) {
    struct timespec now;
    clock_gettime(CLOCK_MONOTONIC, &now);
    time_t passed = now.tv_sec - job->asked.tv_sec;
    return (struct timespec){.tv_sec = passed < LONGEST ? LONGEST - passed : 0};
}

/* Hands a signal on. */
static void hand_on(Job *job, int signal) {
    if (!job->first) {
        job->first = signal;
        clock_gettime(CLOCK_MONOTONIC, &job->asked);
    }
    (void)!write(job->wire, "e", 1);
}

/* Waits for the launcher's end, and answers how it ended. */
static int follow(Job *job, const sigset_t *awaited) {
    int status = 0;
    for (;;) {
        if (waitpid(job->launcher, &status, WNOHANG) != 0) return status;
        struct timespec left = job->first ? time_left(job) : (struct timespec){.tv_sec = INT_MAX};
        int came = sigtimedwait(awaited, NULL, &left);
        if (came > 0 && came != SIGCHLD) hand_on(job, came);
        if (came < 0 && errno == EAGAIN && job->first) {
            say("the job doesn't end, and is killed", "");
            kill(job->launcher, SIGKILL);
            waitpid(job->launcher, &status, 0);
            return status;
        }
    }
}

/* Ends as the job did: by the signal that ended it, or with its status. */
static int leave(const Job *job, int status, const sigset_t *before) {
    if (job->first && (!WIFEXITED(status) || WEXITSTATUS(status) == INTERRUPTED)) {
        signal(job->first, SIG_DFL);
        raise(job->first);
        sigprocmask(SIG_SETMASK, before, NULL);
    }
    if (WIFEXITED(status)) return WEXITSTATUS(status);
    fprintf(stderr, "mpirun: its launching process was ended by signal %d\n", WTERMSIG(status));
    return FAILED;
}

int main(int count, char **words) {
    int wire[2];
    sigset_t before, awaited = awaited_signals();
    open_standard_streams();
    signal(SIGCHLD, SIG_DFL);
    sigprocmask(SIG_BLOCK, &awaited, &before);
    Job job = {.front = getpid(), .launcher = -1};
    if (count > 0 && pipe2(wire, O_CLOEXEC) == 0) job.launcher = fork();
    if (job.launcher == 0) become_launcher(job.front, wire[0], count, words, &before);
    if (job.launcher < 0) {
        say("its launching process can't be started: ", strerror(errno));
        return FAILED;
    }
    close(wire[0]);
    job.wire = wire[1];
    signal(SIGPIPE, SIG_IGN);
    return leave(&job, follow(&job, &awaited), &before);
}
