/* Error classes and codes that a program adds (MPI 3.1, 8.5): they go on behind MPI_ERR_LASTCODE. */
#include "error_codes.h"

#include "errors.h"
#include "internal.h"
#include "names.h"

#include <stdlib.h>

struct added {
    int class; /* of a class, itself */
    char text[MPI_MAX_ERROR_STRING];
};

static struct added *added;
static int count, room;

static struct added *added_of(int code) {
    return code > MPI_ERR_LASTCODE && code <= last_error_code() ? &added[code - MPI_ERR_LASTCODE - 1] : NULL;
}

bool find_added(int code, int *class, const char **text) {
    const struct added *own = added_of(code);
    if (own == NULL) return false;
    *class = own->class;
    *text = own->text;
    return true;
}

int last_error_code(void) { return MPI_ERR_LASTCODE + count; }

void close_error_codes(void) {
    free(added);
    added = NULL;
    count = room = 0;
}

/* Adds a code: of this class, or a class of its own where it is -1. */
static int add(const char *call, int class, int *code) {
    if (count == room) {
        struct added *more = realloc(added, (size_t)(room + 16) * sizeof *more);
        if (more == NULL) return raise_on(MPI_COMM_WORLD, call, MPI_ERR_NO_MEM, "no memory for an error code");
        added = more;
        room += 16;
    }
    *code = MPI_ERR_LASTCODE + 1 + count;
    added[count++] = (struct added){.class = class < 0 ? *code : class};
    return MPI_SUCCESS;
}

int MPI_Add_error_class(int *errorclass) {
    NOTE_CALLER();
    static const char call[] = "MPI_Add_error_class";
    check_running(call);
    int class = check_result(MPI_COMM_WORLD, call, errorclass, "errorclass");
    return class != MPI_SUCCESS ? class : add(call, -1, errorclass);
}

int MPI_Add_error_code(int errorclass, int *errorcode) {
    NOTE_CALLER();
    static const char call[] = "MPI_Add_error_code";
    check_running(call);
    int class = check_result(MPI_COMM_WORLD, call, errorcode, "errorcode");
    if (class != MPI_SUCCESS) return class;
    const struct added *own = added_of(errorclass);
    const bool is_class = own != NULL ? own->class == errorclass : errorclass >= 0 && errorclass <= MPI_ERR_LASTCODE;
    if (!is_class) return raise_on(MPI_COMM_WORLD, call, MPI_ERR_ARG, "no such error class: %d", errorclass);
    return add(call, errorclass, errorcode);
}

int MPI_Add_error_string(int errorcode, const char *string) {
    NOTE_CALLER();
    static const char call[] = "MPI_Add_error_string";
    check_running(call);
    int class = check_result(MPI_COMM_WORLD, call, string, "string");
    if (class != MPI_SUCCESS) return class;
    struct added *own = added_of(errorcode);
    if (own == NULL) return raise_on(MPI_COMM_WORLD, call, MPI_ERR_ARG, "%d isn't a code that was added", errorcode);
    if (memchr(string, '\0', MPI_MAX_ERROR_STRING) == NULL)
        return raise_on(MPI_COMM_WORLD, call, MPI_ERR_ARG, "a text of more than %d bytes", MPI_MAX_ERROR_STRING - 1);
    memcpy(own->text, string, strlen(string) + 1);
    return MPI_SUCCESS;
}
