/* Calls of the program, from their beginnings to their ends: see record.h. */
#include "record.h"

#include <stdio.h>
#include <string.h>

/* How many calls of MPI this thread is in: those within another one are the library's. */
static _Thread_local int depth;
static char last_look[160];

bool begin_look(void) { return depth++ == 0 && is_recording; }

void write_call(const char *name) {
    int place = place_of_call();
    last_look[0] = '\0';
    write_line("call %d %s", place, name);
}

bool begin_call(const char *name) {
    bool is_own = begin_look();
    if (is_own) write_call(name);
    return is_own;
}

int end_look(int code) {
    depth--;
    return code;
}

int end_call(bool is_own, int code) {
    if (is_own && code != MPI_SUCCESS) {
        int class = code;
        PMPI_Error_class(code, &class);
        write_line("error %d", class);
    }
    if (is_own) write_line("done");
    return end_look(code);
}

void write_vain_look(const char *name, const char *what) {
    char now[sizeof last_look];
    snprintf(now, sizeof now, "%s %s", name, what);
    if (strcmp(now, last_look) == 0) return;
    write_call(name);
    write_line("look %s", what);
    write_line("done");
    strcpy(last_look, now);
}

void write_lack(const char *what) { write_line("lacks %s", what); }
