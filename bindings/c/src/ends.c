/* Lines of the program, and its end (MPI 3.1, 8.7): see ends.h. */
#define _GNU_SOURCE
#include "ends.h"

#include "internal.h"
#include "pmi.h"

#include <stdio.h>
#include <stdio_ext.h>
#include <stdlib.h>
#include <unistd.h>

/* A pipe to a launcher is no terminal, so libc would keep lines back until its room is full. C11 lets a program choose
 * that only before it prints (7.21.5.6), and this one may have printed. glibc takes another room at any time: what
 * stands in the old one goes out first, and its pointers begin anew. A program that wants neither lines nor a room of
 * its own said so before; any other choice it may make behind MPI_Init. */
void print_by_lines(void) {
    static char room[BUFSIZ];
    if (isatty(STDOUT_FILENO) || __fbufsize(stdout) == 1) return;
    fflush(stdout);
    (void)setvbuf(stdout, room, _IOLBF, sizeof room);
    /* Input that is wanted on a stream of lines lets the beginning of a line out (7.21.3). What was read stays. */
    (void)setvbuf(stdin, NULL, _IOLBF, BUFSIZ);
}

/* The process that began MPI: a child that the program made of it may end as it likes. */
static pid_t own_process;

static void tell_unfinished(int status, void *nothing) {
    (void)nothing;
    if (process.phase != RUNNING || getpid() != own_process) return;
    if (status != 0) {
        /* The launcher of a site may not look at it, and the others wait for ever. */
        if (pmi_is_open()) fflush(NULL), pmi_abort(status);
        return;
    }
    fflush(stdout);
    fprintf(stderr, "rank %d: the program ended without MPI_Finalize\n", process.rank);
    end_job(MPI_ERR_OTHER);
}

void watch_end(void) {
    own_process = getpid();
    (void)on_exit(tell_unfinished, NULL);
}
