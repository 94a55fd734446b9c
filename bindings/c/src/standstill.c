/* A file with a byte for each rank: see standstill.h. */
#define _GNU_SOURCE
#include "standstill.h"

#include "addresses.h"
#include "device.h"
#include "internal.h"
#include "lines.h"
#include "marks.h"

#include <fcntl.h>
#include <stdlib.h>
#include <string.h>
#include <sys/stat.h>
#include <time.h>
#include <unistd.h>

enum {
    SOON = 1000,          /* milliseconds behind which a rank waits in vain */
    LONGEST_START = 1000, /* so many a rank waits for others that begin */
    RARELY = 100,         /* so many pass between two looks at the system's list of ports */
};

static int file = -1;
static bool is_marked, is_told;
/* Whether a rank that was told a patience gives up by itself, whatever the others do. */
static bool is_alone;

/* Of which ranks it is known that they have begun; and whether nobody is waited for any more. */
static bool has_begun[MOST_RANKS], have_all_begun;

/* So many marks as there are ranks; one that hasn't begun yet has none. */
static bool read_marks(char *marks) {
    const size_t size = (size_t)process.size;
    return pread(file, marks, size, 0) == (ssize_t)size;
}

static bool make_mark(char mark) { return pwrite(file, &mark, 1, process.rank) == 1; }

/* A process has the byte of its rank locked as long as it lives, or until it is in MPI_Finalize. */
static bool is_locked;

static struct flock lock_of(int rank) {
    return (struct flock){.l_type = F_WRLCK, .l_whence = SEEK_SET, .l_start = rank, .l_len = 1};
}

static void lock_own(void) {
    struct flock own = lock_of(process.rank);
    is_locked = file >= 0 && fcntl(file, F_SETLK, &own) == 0;
}

/* Whether a rank had begun, and is gone without MPI_Finalize. */
static bool is_gone(int rank, char mark) {
    struct flock other = lock_of(rank);
    if (mark != MARK_BEGUN || !is_locked || rank == process.rank) return false;
    return fcntl(file, F_GETLK, &other) == 0 && other.l_type == F_UNLCK;
}

/* Whether nothing more is to come of a rank. */
static bool is_out(int rank, char mark) { return mark == MARK_ENDED || mark == MARK_LEFT || is_gone(rank, mark); }

/* The first rank that is gone, or -1; and the first one of which more is to come, which tells it. */
static int first_gone(const char *marks) {
    int rank = 0;
    while (rank < process.size && !is_gone(rank, marks[rank])) rank++;
    return rank < process.size ? rank : -1;
}
static bool is_first_left(const char *marks) {
    int rank = 0;
    while (rank < process.rank && is_out(rank, marks[rank])) rank++;
    return rank == process.rank;
}

/* Whether each rank waits, or nothing more is to come of it. */
static bool do_all_wait(char *marks) {
    if (!read_marks(marks)) return false;
    for (int rank = 0; rank < process.size; rank++)
        if (!is_waiting(marks[rank]) && !is_out(rank, marks[rank])) return false;
    return true;
}

/* Whether all wait, and since then each of them has looked twice for what may have been on its way. */
static bool are_all_still(char *marks) {
    static char seen[MOST_RANKS];
    static int rounds;
    bool have_looked = true;
    if (!do_all_wait(marks)) {
        rounds = 0;
        return false;
    }
    for (int rank = 0; rank < process.size; rank++)
        have_looked = have_looked && (!is_waiting(marks[rank]) || marks[rank] != seen[rank]);
    if (rounds > 0 && !have_looked) return false;
    memcpy(seen, marks, (size_t)process.size);
    return ++rounds > 2;
}

/* Whether a file is one of marks: a regular one of this user that has no name, and a byte for each rank. So no file of
 * a user is ever written to. */
static bool is_of_marks(const char *name) {
    struct stat found;
    return stat(name, &found) == 0 && S_ISREG(found.st_mode) && found.st_nlink == 0 && found.st_uid == geteuid() &&
           found.st_size == process.size;
}

void standstill_open(bool is_together) {
    const char *name = getenv("KOMBAZILY_STANDSTILL"), *together = getenv("KOMBAZILY_TOGETHER");
    is_alone = process.patience != 0 && (together == NULL || strcmp(together, "1") != 0);
    if (name != NULL && is_together && process.size > 1 && is_of_marks(name)) file = open(name, O_RDWR | O_CLOEXEC);
    lock_own();
}

void await_begun(void) {
    static const struct timespec moment = {.tv_nsec = 500000};
    char marks[MOST_RANKS];
    uint64_t until = device_nanoseconds() + (uint64_t)LONGEST_START * 1000000;
    if (file < 0 || !make_mark(MARK_BEGUN)) return;
    while (read_marks(marks) && !have_all_come(marks, process.size) && device_nanoseconds() < until)
        nanosleep(&moment, NULL);
}

/* Whether a rank that made no mark has its port nevertheless, since it sees no such file, as in a namespace of its own.
 * That is rare, and so looked at late and seldom. */
static bool is_unmarked(int rank) {
    static uint64_t due;
    const uint64_t now = device_nanoseconds();
    if (due == 0) due = now + (uint64_t)5 * LONGEST_START * 1000000;
    if (now < due) return false;
    due = now + (uint64_t)RARELY * 1000000;
    return device_is_held(rank);
}

bool is_there(int rank) {
    char marks[MOST_RANKS];
    if (file < 0 || have_all_begun || has_begun[rank]) return true;
    if (!read_marks(marks)) return false;
    have_all_begun = have_all_ports(marks, process.size);
    has_begun[rank] = has_port(marks[rank]) || (marks[rank] == '\0' && is_unmarked(rank));
    return has_begun[rank];
}

/* Says whether this rank waits in vain. */
static void mark(bool waits) {
    static unsigned looks;
    if (file < 0 || (!waits && !is_marked)) return;
    is_marked = waits;
    if (!make_mark(waits ? mark_of_look(looks++) : MARK_BEGUN)) is_marked = false;
}

/* What all do then. */
static void add_outlook(struct line *line, bool is_end) {
    if (process.patience != 0) {
        add_text(line, ": after ");
        add_time(line, process.patience);
        add_text(line, " they give up (-patience MS)");
    } else if (is_end) add_text(line, "; the job ends");
    else add_text(line, "; Ctrl-C ends the job and tells what each waits for");
}

static void tell(const char *marks) {
    struct line line = {.length = 0};
    const int unbegun = first_marked(marks, process.size, MARK_ENDED), gone = first_gone(marks);
    add_text(&line, "rank %d: ", process.rank);
    if (unbegun >= 0) add_text(&line, "rank %d has ended before MPI_Init; all others wait", unbegun);
    else if (gone >= 0) add_text(&line, "rank %d has ended without MPI_Finalize; all others wait", gone);
    else add_text(&line, "all ranks wait");
    add_text(&line, ", and nothing has moved for ");
    add_time(&line, SOON);
    add_outlook(&line, unbegun >= 0);
    write_line(&line);
}

/* Ends this rank, where one never begins for which the others wait: behind the first of these, which tells it. */
static void end_unbegun(const char *marks) {
    const bool is_known = first_marked(marks, process.size, MARK_LEFT) >= 0;
    if (!is_known && !is_first_left(marks)) return;
    if (!is_known) tell(marks);
    if (make_mark(MARK_LEFT)) end_job(MPI_ERR_OTHER);
}

bool is_standstill(uint64_t quiet) {
    char marks[MOST_RANKS];
    if (file < 0 || is_alone) return true;
    /* Another thread may compute, and then send. */
    if (process.is_threaded) return false;
    uint64_t patience = (uint64_t)process.patience;
    mark(quiet >= (patience < SOON ? patience : SOON));
    if (!is_marked || !do_all_wait(marks)) return false;
    if (!is_told && patience > SOON && is_first_left(marks)) tell(marks);
    is_told = true;
    return true;
}

void watch_standstill(uint64_t quiet, bool is_idle) {
    char marks[MOST_RANKS];
    if (file < 0 || process.is_threaded) return;
    mark(quiet >= SOON && is_idle);
    if (is_told || !is_marked || !are_all_still(marks)) return;
    if (first_marked(marks, process.size, MARK_ENDED) >= 0) {
        end_unbegun(marks);
        return;
    }
    if (!is_first_left(marks)) return;
    tell(marks);
    is_told = true;
}

void standstill_leave(void) { mark(false); }

void standstill_close(void) {
    mark(true);
    if (file >= 0) close(file);
    file = -1;
}
