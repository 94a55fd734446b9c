/* The beginning and the end of MPI in a process, and what a program may ask of its surroundings (MPI 3.1, 8 and 12.4).
 */
#define _GNU_SOURCE
#include "agreement.h"
#include "attributes.h"
#include "device.h"
#include "ends.h"
#include "error_codes.h"
#include "errors.h"
#include "explored.h"
#include "handlers.h"
#include "info.h"
#include "internal.h"
#include "invitations.h"
#include "leftovers.h"
#include "own_operations.h"
#include "pmi.h"
#include "rows.h"
#include "standstill.h"
#include "start.h"
#include "transfers.h"
#include "types.h"
#include "unasked.h"
#include "wait_lines.h"
#include "watches.h"
#include "worlds.h"

#include <errno.h>
#include <stdarg.h>
#include <stdio.h>
#include <stdlib.h>
#include <string.h>
#include <threads.h>
#include <unistd.h>

struct process process = {.size = 1, .call = "MPI_Init"};
static struct addresses addresses;
static thrd_t main_thread;

_Noreturn void end_job(int status) {
    int code = status & 255 ? status & 255 : 1;
    fflush(NULL);
    pmi_abort(code);
    _exit(code);
}

/* ---- the beginning ---- */

/* Whether a variable of the environment is 1. */
static bool is_wanted(const char *variable) {
    const char *value = getenv(variable);
    return value != NULL && strcmp(value, "1") == 0;
}

bool is_neighbour(int rank) { return addresses.of_rank[rank] == addresses.of_rank[process.rank]; }

int first_neighbour(void) {
    int rank = 0;
    while (!is_neighbour(rank)) rank++;
    return rank;
}

static void open_engine(void) {
    first_world.rank = process.rank;
    first_world.size = process.size;
    uint32_t number = make_engine(&first_world, OF_PROGRAMS);
    if (number != 0) refuse_start(STATUS_PLACE, "the engine refuses its place: ", cause_of(number));
}

/* A job of one process needs no socket. */
static void open_device(void) {
    if (process.size == 1 || device_open(process.rank, &addresses)) return;
    char cause[128];
    uint32_t own = addresses.of_rank[process.rank];
    snprintf(cause, sizeof cause, "%u.%u.%u.%u port %d: %s", own >> 24, own >> 16 & 255, own >> 8 & 255, own & 255,
             port_at(&addresses, process.rank), strerror(errno));
    refuse_start(STATUS_SOCKET, "no socket at ", cause);
}

/* The level of threads that a program gets (12.4.3). Under an explorer calls come one by one. */
static int level_of(int required) {
    const int highest = is_explored ? MPI_THREAD_SERIALIZED : MPI_THREAD_MULTIPLE;
    return required < MPI_THREAD_SINGLE ? MPI_THREAD_SINGLE : required < highest ? required : highest;
}

/* Several threads may speak MPI from now on. All ranks of the job have asked for that: they meet, so that it is told
 * where one has not. */
static int open_threads(const char *call) {
    if (process.thread_level < MPI_THREAD_MULTIPLE) return MPI_SUCCESS;
    const struct engine_call meeting = {.kind = ENGINE_BARRIER, .communicator = ENGINE_WORLD};
    struct engine_answer answer;
    uint32_t number = enter_engine(&meeting, NULL, 0, &answer);
    if (number != 0) return raise_number(MPI_COMM_WORLD, call, number);
    threads_open();
    return MPI_SUCCESS;
}

static int begin(const char *call, int *argc, char ***argv, int required) {
    if (process.phase != BEFORE_INIT) return raise_on(MPI_COMM_WORLD, call, MPI_ERR_OTHER, "it was called before");
    process.call = call;
    find_place(argc, argv, &addresses);
    const bool has_explorer = explored_open();
    print_by_lines();
    follow_keeper();
    if (process.size > 1) watch_end();
    watch_signals();
    standstill_open(!has_explorer && are_together(&addresses));
    process.sends_wait = is_wanted("KOMBAZILY_SYNCHRONOUS");
    process.checks = is_wanted("KOMBAZILY_CHECK");
    watches_open();
    if (!open_unasked())
        refuse_start(STATUS_PLACE, TOLD_WRONGLY, "KOMBAZILY_UNASKED is neither a number of bytes nor none");
    if (!has_explorer) {
        open_device();
        open_engine();
        await_begun();
    }
    progress_open();
    process.phase = RUNNING;
    main_thread = thrd_current();
    process.thread_level = level_of(required);
    progress();
    open_infos(argc == NULL ? 0 : *argc, argv == NULL ? NULL : *argv);
    keep_place_from_children();
    int class = open_communicators();
    return class == MPI_SUCCESS ? open_threads(call) : class;
}

/* Answers a number, where there is somewhere to put it. */
static int put_number(const char *call, const char *name, int *into, int number) {
    int class = check_result(MPI_COMM_WORLD, call, into, name);
    if (class == MPI_SUCCESS) *into = number;
    return class;
}

int MPI_Init(int *argc, char ***argv) {
    NOTE_CALLER();
    return begin("MPI_Init", argc, argv, MPI_THREAD_SINGLE);
}

int MPI_Init_thread(int *argc, char ***argv, int required, int *provided) {
    NOTE_CALLER();
    int class = begin("MPI_Init_thread", argc, argv, required);
    return class != MPI_SUCCESS ? class : put_number("MPI_Init_thread", "provided", provided, process.thread_level);
}

int MPI_Initialized(int *flag) {
    NOTE_CALLER();
    return put_number("MPI_Initialized", "flag", flag, process.phase != BEFORE_INIT);
}

/* ---- the end ---- */

/* All that this rank sent is acknowledged before it enters a barrier; so behind the barrier nobody waits for anything
 * but frames of the barrier itself, and whoever has left it waits for acknowledgements of these alone. */
static void leave_job(void) {
    const struct engine_call barrier = {.kind = ENGINE_BARRIER, .communicator = ENGINE_WORLD};
    struct engine_answer answer;
    begin_wait(&(struct wait){.kind = WAIT_SENT});
    progress_until_idle();
    progress_say_often();
    call_engine(&barrier, NULL, 0, &answer);
    begin_wait(&(struct wait){.kind = WAIT_COLLECTIVE, .place = ENGINE_WORLD, .root = -1});
    await_finish(&answer);
    begin_wait(&(struct wait){.kind = WAIT_SENT});
    progress_last_words();
    end_wait();
}

int MPI_Finalize(void) {
    NOTE_CALLER();
    static const char call[] = "MPI_Finalize";
    check_running(call);
    int left = delete_values(MPI_COMM_SELF, call);
    if (process.checks && !is_explored) tell_requests();
    if (is_explored) explored_finalize();
    else abandon_requests(), settle_freed();
    int class = MPI_SUCCESS;
    if (device_is_open()) {
        class = compare_entries(call);
        leave_job();
        if (class == MPI_SUCCESS) class = tell_disagreement(call);
    }
    if (process.checks && !is_explored) tell_messages();
    standstill_close();
    close_requests();
    close_buffer();
    close_messages();
    close_invitations();
    close_communicators();
    close_type_values();
    close_types();
    close_keyvals();
    close_handlers();
    close_error_codes();
    close_infos();
    close_operations();
    device_close();
    close_worlds();
    pmi_close();
    process.phase = FINALIZED;
    return class != MPI_SUCCESS ? class : left;
}

int MPI_Finalized(int *flag) {
    NOTE_CALLER();
    return put_number("MPI_Finalized", "flag", flag, process.phase == FINALIZED);
}

int MPI_Abort(MPI_Comm comm, int errorcode) {
    NOTE_CALLER();
    (void)comm;
    fflush(stdout);
    if (is_explored) explored_abort(errorcode);
    fprintf(stderr, "rank %d: MPI_Abort: code %d\n", process.rank, errorcode);
    end_job(errorcode);
}

/* ---- threads ---- */

int MPI_Query_thread(int *provided) {
    NOTE_CALLER();
    check_running("MPI_Query_thread");
    return put_number("MPI_Query_thread", "provided", provided, process.thread_level);
}

int MPI_Is_thread_main(int *flag) {
    NOTE_CALLER();
    check_running("MPI_Is_thread_main");
    return put_number("MPI_Is_thread_main", "flag", flag, thrd_equal(thrd_current(), main_thread) != 0);
}

/* ---- surroundings ---- */

int MPI_Get_version(int *version, int *subversion) {
    NOTE_CALLER();
    int class = put_number("MPI_Get_version", "version", version, MPI_VERSION);
    return class != MPI_SUCCESS ? class : put_number("MPI_Get_version", "subversion", subversion, MPI_SUBVERSION);
}

int MPI_Get_library_version(char *version, int *resultlen) {
    NOTE_CALLER();
    static const char call[] = "MPI_Get_library_version";
    int class = check_result(MPI_COMM_WORLD, call, version, "version");
    if (class == MPI_SUCCESS) class = check_result(MPI_COMM_WORLD, call, resultlen, "resultlen");
    if (class != MPI_SUCCESS) return class;
    *resultlen = snprintf(version, MPI_MAX_LIBRARY_VERSION_STRING, "Kombazily 0.1.0, a part of MPI %d.%d", MPI_VERSION,
                          MPI_SUBVERSION);
    return MPI_SUCCESS;
}

int MPI_Get_processor_name(char *name, int *resultlen) {
    NOTE_CALLER();
    static const char call[] = "MPI_Get_processor_name";
    check_running(call);
    int class = check_result(MPI_COMM_WORLD, call, name, "name");
    if (class == MPI_SUCCESS) class = check_result(MPI_COMM_WORLD, call, resultlen, "resultlen");
    if (class != MPI_SUCCESS) return class;
    if (gethostname(name, MPI_MAX_PROCESSOR_NAME) != 0) strcpy(name, "localhost");
    name[MPI_MAX_PROCESSOR_NAME - 1] = '\0';
    *resultlen = (int)strlen(name);
    return MPI_SUCCESS;
}

double MPI_Wtime(void) {
    NOTE_CALLER();
    return (double)(is_explored ? explored_nanoseconds() : device_nanoseconds()) * 1e-9;
}

double MPI_Wtick(void) {
    NOTE_CALLER();
    return 1e-9;
}

int MPI_Alloc_mem(MPI_Aint size, MPI_Info info, void *baseptr) {
    NOTE_CALLER();
    static const char call[] = "MPI_Alloc_mem";
    (void)info;
    check_running(call);
    int class = check_result(MPI_COMM_WORLD, call, baseptr, "baseptr");
    if (class != MPI_SUCCESS) return class;
    if (size < 0) return raise_on(MPI_COMM_WORLD, call, MPI_ERR_ARG, "a size of %td bytes", size);
    void *made = malloc(size > 0 ? (size_t)size : 1);
    if (made == NULL) return raise_on(MPI_COMM_WORLD, call, MPI_ERR_NO_MEM, "no memory of %td bytes", size);
    memcpy(baseptr, &made, sizeof made);
    return MPI_SUCCESS;
}

int MPI_Free_mem(void *base) {
    NOTE_CALLER();
    free(base);
    return MPI_SUCCESS;
}

int MPI_Pcontrol(const int level, ...) {
    NOTE_CALLER();
    (void)level;
    return MPI_SUCCESS;
}
