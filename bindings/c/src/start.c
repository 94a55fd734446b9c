/* The place of this process: see start.h. */
#define _GNU_SOURCE
#include "start.h"

#include "device.h"
#include "internal.h"
#include "launching.h"
#include "place.h"
#include "pmi.h"

#include <errno.h>
#include <limits.h>
#include <poll.h>
#include <signal.h>
#include <stdio.h>
#include <stdlib.h>
#include <string.h>
#include <sys/prctl.h>
#include <sys/random.h>
#include <unistd.h>

static bool is_alone = true;

_Noreturn void refuse_start(int status, const char *cause, const char *detail) {
    fflush(stdout);
    fprintf(stderr, "rank %d: MPI_Init: %s%s\n", process.rank, cause, detail);
    end_job(status);
}

/* Ends a process that is told its place wrongly: which rank it is isn't known. */
static _Noreturn void refuse_place(const char *fault) {
    fflush(stdout);
    fprintf(stderr, "MPI_Init: " TOLD_WRONGLY "%s\n", fault);
    end_job(STATUS_PLACE);
}

/* ---- by words and variables ---- */

int rank_in_environment(void) {
    struct place place;
    const char *fault;
    return place_in_environment(getenv, &place, &fault) == PLACE_TOLD ? (int)place.rank : -1;
}

/* Takes words of the launcher out of the program's. */
static void drop_words(int taken, int *argc, char ***argv) {
    memmove(*argv + 1, *argv + 1 + taken, (size_t)(*argc - taken) * sizeof **argv);
    *argc -= taken;
}

/* Where the ranks are: all on this machine, unless KOMBAZILY_HOSTS says otherwise. */
static void find_addresses(const struct place *place, struct addresses *job) {
    const char *hosts = getenv("KOMBAZILY_HOSTS");
    job->size = (int)place->size;
    job->first_port = (int)place->port;
    put_loopback(job);
    if (hosts != NULL && !read_addresses(hosts, job)) refuse_start(STATUS_PLACE, TOLD_WRONGLY, "KOMBAZILY_HOSTS");
}

static void take_place(const struct place *place, struct addresses *job) {
    process.rank = (int)place->rank;
    process.size = (int)place->size;
    process.incarnation = (int)place->incarnation;
    process.job = place->job;
    process.patience = (long)place->patience;
    find_addresses(place, job);
}

/* ---- by a launcher of a site ---- */

/* The address at which the others find this rank: in the network that was chosen, or of the default route, or in any
 * other one that there is. */
static uint32_t own_address(uint32_t towards) {
    uint32_t address;
    if (device_own_address(towards, &address)) return address;
    if (getenv("KOMBAZILY_TOWARDS") != NULL)
        refuse_start(STATUS_SOCKET, "no way leads to KOMBAZILY_TOWARDS: ", strerror(errno));
    return device_any_address();
}

/* Takes a free port. */
static void claim(const struct launch_way *way, struct told_place *own) {
    own->address = own_address(way->towards);
    if (device_claim(own->address, way->first_port, way->last_port, process.rank, &own->port)) return;
    char cause[128];
    const char *why = strerror(errno);
    uint32_t at = own->address;
    snprintf(cause, sizeof cause, "%u.%u.%u.%u, ports %u-%u: %s", at >> 24, at >> 16 & 255, at >> 8 & 255, at & 255,
             way->first_port, way->last_port, why);
    refuse_start(STATUS_SOCKET, "no socket at ", cause);
}

static _Noreturn void refuse_launcher(void) { refuse_start(STATUS_PLACE, "its launcher: ", pmi_fault()); }

/* Ranks that are at addresses of their own machines alone can't be reached by those that aren't. */
static void check_reach(const struct addresses *job) {
    const uint32_t local = LOOPBACK >> 24;
    for (int rank = 1; rank < job->size; rank++)
        if ((job->of_rank[rank] >> 24 == local) != (job->of_rank[0] >> 24 == local))
            refuse_start(STATUS_PLACE, "some ranks are at 127.0.0.1, where those on other machines can't reach them: ",
                         "KOMBAZILY_TOWARDS=ADDRESS chooses the network");
}

/* Takes the place that a launcher tells: each rank takes a free port, and tells the others where it is. */
static void ask_launcher(const struct launch_way *way, struct addresses *job) {
    struct told_place own = {.has_job = way->rank == 0};
    process.rank = way->rank;
    process.size = way->size;
    process.patience = (long)way->patience;
    job->size = way->size;
    if (!pmi_open(way)) refuse_launcher();
    if (way->size == 1) return;
    claim(way, &own);
    if (own.has_job && getrandom(&own.job, sizeof own.job, 0) != sizeof own.job)
        refuse_start(STATUS_PLACE, "no random number: ", strerror(errno));
    if (!pmi_exchange(&own, job, &process.job)) refuse_launcher();
    check_reach(job);
}

/* ---- how long frames are ---- */

/* What is told, or what all ranks take by where they are: the same at each. */
static uint32_t frame_of(const struct addresses *job) {
    const char *told = getenv("KOMBAZILY_FRAME");
    const char *text = told == NULL ? "" : told;
    uint32_t bytes =
        kombazily_frame(told != NULL, (const uint8_t *)text, strlen(text), job->of_rank, (size_t)job->size);
    if (bytes == 0) refuse_start(STATUS_PLACE, TOLD_WRONGLY, "KOMBAZILY_FRAME is no multiple of 8 from 1024 to 61440");
    return bytes;
}

/* ---- which of these ---- */

/* Ends a process that has no place. */
static _Noreturn void refuse_way(uint32_t fault) {
    static const char *const faults[] = {
        [FAULT_DESCRIPTOR] = "PMI_FD is absent or no descriptor (PMI over a port, PMI_PORT, isn't spoken)",
        [FAULT_SIZE] = "PMI_SIZE is absent or no number from 1 to 1024",
        [FAULT_RANK] = "PMI_RANK is absent or no number up to 1023",
        [FAULT_ORDER] = "PMI_RANK isn't below PMI_SIZE",
        [FAULT_WIRE] = "KOMBAZILY_PMI is neither 1 nor 2",
        [FAULT_PORTS] = "KOMBAZILY_PORTS is no range of ports, as 40000-40999",
        [FAULT_NETWORK] = "KOMBAZILY_TOWARDS is no IPv4 address",
        [FAULT_PATIENCE] = "KOMBAZILY_PATIENCE is no number from 1 to 3600000",
        [FAULT_SLURM] = "SLURM started several tasks, and speaks no PMI to them",
        [FAULT_OPENMPI] = "Open MPI's launcher started several processes",
        [FAULT_PMIX] = "the launcher that started it speaks PMIx alone"};
    if (fault < FAULT_SLURM) refuse_place(faults[fault]);
    fflush(stdout);
    fprintf(stderr,
            "MPI_Init: %s, so this would be a job of one rank: start it by srun --mpi=pmi2, by mpiexec.hydra or by "
            "Kombazily's mpirun\n",
            faults[fault]);
    end_job(MPI_ERR_OTHER);
}

/* By which way the process has its place, by its variables: each with a zero behind it. */
static struct launch_way find_way(bool has_words) {
    struct launch_way way;
    size_t len = 0;
    for (char **it = environ; it != NULL && *it != NULL; it++) len += strlen(*it) + 1;
    char *all = malloc(len + 1), *at = all;
    if (all == NULL) refuse_start(STATUS_PLACE, "no memory", "");
    for (char **it = environ; it != NULL && *it != NULL; it++) at = stpcpy(at, *it) + 1;
    kombazily_way(has_words, (const uint8_t *)all, len, &way);
    free(all);
    return way;
}

void find_place(int *argc, char ***argv, struct addresses *job) {
    struct place place = {.size = 1, .port = 1};
    const char *fault = NULL;
    int taken = 0;
    enum place_source source = PLACE_NONE;
    if (argc != NULL && argv != NULL) source = place_in_words(*argc, *argv, &place, &taken, &fault);
    if (source == PLACE_TOLD) drop_words(taken, argc, argv);
    const struct launch_way way = find_way(source != PLACE_NONE);
    is_alone = way.kind == WAY_ALONE;
    if (way.kind == WAY_REFUSED) refuse_way(way.fault);
    if (way.kind == WAY_LAUNCHER) ask_launcher(&way, job);
    if (way.kind == WAY_VARIABLES || is_alone) source = place_in_environment(getenv, &place, &fault);
    if (source == PLACE_FAULTY) refuse_place(fault);
    if (source == PLACE_TOLD) take_place(&place, job);
    process.frame = frame_of(job);
    process.is_apart = !are_together(job);
}

/* Whether the standard output is a pipe that nobody reads any more. */
static bool is_unread(void) {
    struct pollfd output = {.fd = STDOUT_FILENO};
    return poll(&output, 1, 0) == 1 && (output.revents & POLLERR) != 0;
}

/* Whether a process is gone, or has ended and nobody has asked how. */
static bool has_ended(pid_t other) {
    char name[32], text[512];
    snprintf(name, sizeof name, "/proc/%d/stat", (int)other);
    FILE *file = fopen(name, "r");
    if (file == NULL) return kill(other, 0) != 0 && errno == ESRCH;
    text[fread(text, 1, sizeof text - 1, file)] = '\0';
    fclose(file);
    /* The name of its program, which may have anything in it, stands in brackets in front of its state. */
    const char *end = strrchr(text, ')');
    return end != NULL && (strncmp(end, ") Z", 3) == 0 || strncmp(end, ") X", 3) == 0);
}

void follow_keeper(void) {
    const char *text = getenv("KOMBAZILY_KEEPER");
    uint64_t keeper;
    if (text == NULL || !read_number(text, INT_MAX, &keeper)) return;
    const bool is_own = getppid() == (pid_t)keeper;
    if (is_own && prctl(PR_SET_PDEATHSIG, SIGKILL) == 0 && getppid() == (pid_t)keeper) return;
    /* It is gone already, or somebody stands between, or it is seen under another number from here. */
    if (is_own || (is_unread() && has_ended((pid_t)keeper))) raise(SIGKILL);
}

void keep_place_from_children(void) {
    static const char *const names[] = {"KOMBAZILY_RANK",     "KOMBAZILY_SIZE",   "KOMBAZILY_INCARNATION",
                                        "KOMBAZILY_JOB",      "KOMBAZILY_PORT",   "KOMBAZILY_HOSTS",
                                        "KOMBAZILY_PATIENCE", "KOMBAZILY_FRAME",  "KOMBAZILY_STANDSTILL",
                                        "KOMBAZILY_TOGETHER", "KOMBAZILY_KEEPER", "PMI_FD",
                                        "PMI_RANK",           "PMI_SIZE",         "KOMBAZILY_EXPLORER",
                                        "PMI_PORT",           "PMI_ID",           "PMI_JOBID",
                                        "PMI_SPAWNED"};
    char rank[16];
    if (is_alone) return;
    for (size_t at = 0; at < sizeof names / sizeof *names; at++) (void)unsetenv(names[at]);
    snprintf(rank, sizeof rank, "%d", process.rank);
    (void)setenv("KOMBAZILY_PARENT", rank, 1);
}
