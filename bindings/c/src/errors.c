/* Errors (MPI 3.1, 8.3 and 8.4). */
#include "errors.h"

#include "error_codes.h"
#include "explored.h"
#include "handlers.h"
#include "internal.h"
#include "lines.h"
#include "names.h"

#include <stdarg.h>
#include <stdio.h>
#include <string.h>

/* What each class means, by its number. */
static const char *const class_texts[MPI_ERR_LASTCODE + 1] = {
    [MPI_SUCCESS] = "no error",
    [MPI_ERR_BUFFER] = "invalid buffer",
    [MPI_ERR_COUNT] = "invalid count",
    [MPI_ERR_TYPE] = "invalid type, or types that don't match",
    [MPI_ERR_TAG] = "invalid tag",
    [MPI_ERR_COMM] = "invalid communicator",
    [MPI_ERR_RANK] = "invalid rank",
    [MPI_ERR_REQUEST] = "invalid request",
    [MPI_ERR_ROOT] = "invalid root",
    [MPI_ERR_GROUP] = "invalid group",
    [MPI_ERR_OP] = "invalid operation",
    [MPI_ERR_TOPOLOGY] = "invalid topology",
    [MPI_ERR_DIMS] = "invalid dimensions",
    [MPI_ERR_ARG] = "invalid argument",
    [MPI_ERR_UNKNOWN] = "unknown error",
    [MPI_ERR_TRUNCATE] = "a message is longer than its receive",
    [MPI_ERR_OTHER] = "an error that no other class tells",
    [MPI_ERR_INTERN] = "an error within the library",
    [MPI_ERR_PENDING] = "not finished yet",
    [MPI_ERR_IN_STATUS] = "the errors are in the statuses",
    [MPI_ERR_ACCESS] = "no right to the file",
    [MPI_ERR_AMODE] = "invalid access mode",
    [MPI_ERR_ASSERT] = "invalid assertion",
    [MPI_ERR_BAD_FILE] = "invalid file name",
    [MPI_ERR_BASE] = "invalid base address",
    [MPI_ERR_CONVERSION] = "an error in the conversion of data",
    [MPI_ERR_DISP] = "invalid displacement",
    [MPI_ERR_DUP_DATAREP] = "the data representation is there already",
    [MPI_ERR_FILE_EXISTS] = "the file exists",
    [MPI_ERR_FILE_IN_USE] = "the file is in use",
    [MPI_ERR_FILE] = "invalid file",
    [MPI_ERR_INFO_KEY] = "the key is too long",
    [MPI_ERR_INFO_NOKEY] = "no such key",
    [MPI_ERR_INFO_VALUE] = "the value is too long",
    [MPI_ERR_INFO] = "invalid info object",
    [MPI_ERR_IO] = "an error of input or output",
    [MPI_ERR_KEYVAL] = "invalid key value",
    [MPI_ERR_LOCKTYPE] = "invalid kind of lock",
    [MPI_ERR_NAME] = "no such service name",
    [MPI_ERR_NO_MEM] = "no memory",
    [MPI_ERR_NOT_SAME] = "arguments that are to be the same at all ranks differ",
    [MPI_ERR_NO_SPACE] = "no space",
    [MPI_ERR_NO_SUCH_FILE] = "no such file",
    [MPI_ERR_PORT] = "invalid port name",
    [MPI_ERR_QUOTA] = "the quota is used up",
    [MPI_ERR_READ_ONLY] = "the file can't be written",
    [MPI_ERR_RMA_ATTACH] = "memory can't be attached",
    [MPI_ERR_RMA_CONFLICT] = "accesses to a window conflict",
    [MPI_ERR_RMA_RANGE] = "memory that isn't of the window",
    [MPI_ERR_RMA_SHARED] = "memory can't be shared",
    [MPI_ERR_RMA_SYNC] = "wrong synchronisation of accesses to a window",
    [MPI_ERR_RMA_FLAVOR] = "a window of the wrong flavour",
    [MPI_ERR_SERVICE] = "no such service",
    [MPI_ERR_SIZE] = "invalid size",
    [MPI_ERR_SPAWN] = "processes can't be started",
    [MPI_ERR_UNSUPPORTED_DATAREP] = "no such data representation",
    [MPI_ERR_UNSUPPORTED_OPERATION] = "the operation isn't supported",
    [MPI_ERR_WIN] = "invalid window",
    [MPI_T_ERR_CANNOT_INIT] = "the interface for tools can't be begun",
    [MPI_T_ERR_NOT_INITIALIZED] = "the interface for tools isn't begun",
    [MPI_T_ERR_MEMORY] = "no memory",
    [MPI_T_ERR_INVALID_INDEX] = "no such index",
    [MPI_T_ERR_INVALID_ITEM] = "no such item",
    [MPI_T_ERR_INVALID_HANDLE] = "invalid handle",
    [MPI_T_ERR_OUT_OF_HANDLES] = "no handles are left",
    [MPI_T_ERR_OUT_OF_SESSIONS] = "no sessions are left",
    [MPI_T_ERR_INVALID_SESSION] = "invalid session",
    [MPI_T_ERR_CVAR_SET_NOT_NOW] = "the variable can't be set now",
    [MPI_T_ERR_CVAR_SET_NEVER] = "the variable can't be set",
    [MPI_T_ERR_PVAR_NO_STARTSTOP] = "the variable can't be started or stopped",
    [MPI_T_ERR_PVAR_NO_WRITE] = "the variable can't be written",
    [MPI_T_ERR_PVAR_NO_ATOMIC] = "the variable can't be read and written at once",
    [MPI_T_ERR_INVALID_NAME] = "no such name",
    [MPI_T_ERR_INVALID] = "invalid use of the interface for tools",
};

/* What the numbers of the engine mean: docs/NUMBERS.md. */
static const struct {
    int class;
    const char *cause;
} engine_numbers[] = {
    [1] = {MPI_ERR_COUNT, "a message of more than 2,147,483,647 bytes"},
    [2] = {MPI_ERR_TYPE, "the message and its receive are of different types"},
    [3] = {MPI_ERR_TAG, "no such tag"},
    [4] = {MPI_ERR_COMM, "no such communicator"},
    [5] = {MPI_ERR_RANK, "no such rank in the communicator"},
    [6] = {MPI_ERR_REQUEST, "no such request"},
    [7] = {MPI_ERR_ROOT, "no such root in the communicator"},
    [8] = {MPI_ERR_GROUP, "a rank twice in a group"},
    [9] = {MPI_ERR_OP, "the operation isn't defined on the type"},
    [10] = {MPI_ERR_TRUNCATE, "the message is longer than its receive"},
    [11] = {MPI_ERR_OTHER, "a rank that it waits for was started anew"},
    [12] = {MPI_ERR_NOT_SAME, "another rank entered it with another kind, root, operation, type or count"},
    [13] = {MPI_ERR_OTHER, "a limit of the library is reached"},
    [14] = {MPI_ERR_NO_MEM, "no memory"},
};
enum { ENGINE_NUMBERS = sizeof engine_numbers / sizeof *engine_numbers };

int class_of(uint32_t number) {
    if (number == 0) return MPI_SUCCESS;
    return number < ENGINE_NUMBERS ? engine_numbers[number].class : MPI_ERR_INTERN;
}

const char *cause_of(uint32_t number) {
    return number != 0 && number < ENGINE_NUMBERS ? engine_numbers[number].cause : "an answer that isn't understood";
}

/* Writes the line of a fatal error, at once, so that lines of several ranks don't mix; and ends the job. Under the
 * explorer the error is told there, and returned where it says so; and so is each error that a call returns. */
static int end_by_error(bool is_returned, const char *call, int class, const char *cause, va_list arguments) {
    char text[LONGEST_CAUSE];
    if (is_returned && !is_explored) return class;
    vsnprintf(text, sizeof text, cause, arguments);
    fflush(stdout);
    if (is_explored && explored_error(is_returned ? ASK_RETURNED : ASK_ERROR, call, class, text)) return class;
    write_error(call, text);
    end_job(class);
}

/* Tells a communicator's handler: a function of the program's is called, and then the call returns. */
static int tell_handler(const struct communicator *comm, const char *call, int class, const char *cause,
                        va_list arguments) {
    class = end_by_error(comm != NULL && comm->errhandler != MPI_ERRORS_ARE_FATAL, call, class, cause, arguments);
    if (comm != NULL) (void)call_handler(comm, class);
    return class;
}

int raise_on(MPI_Comm comm, const char *call, int class, const char *cause, ...) {
    const struct communicator *own = communicator_of(comm);
    if (own == NULL) own = communicator_of(MPI_COMM_WORLD);
    va_list arguments;
    va_start(arguments, cause);
    class = tell_handler(own, call, class, cause, arguments);
    va_end(arguments);
    return class;
}

int raise_in(const struct communicator *comm, const char *call, int class, const char *cause, ...) {
    if (comm == NULL) comm = communicator_of(MPI_COMM_WORLD);
    va_list arguments;
    va_start(arguments, cause);
    class = tell_handler(comm, call, class, cause, arguments);
    va_end(arguments);
    return class;
}

void raise_fatal(const char *call, int class, const char *cause, ...) {
    va_list arguments;
    va_start(arguments, cause);
    (void)end_by_error(false, call, class, cause, arguments);
    va_end(arguments);
}

int raise_number(MPI_Comm comm, const char *call, uint32_t number) {
    return raise_on(comm, call, class_of(number), "%s (%u)", cause_of(number), (unsigned)number);
}

int raise_limited(MPI_Comm comm, const char *call, uint32_t number, const char *limit) {
    if (number != NUMBER_LIMIT) return raise_number(comm, call, number);
    return raise_on(comm, call, class_of(number), "%s (%u)", limit, (unsigned)number);
}

/* The class of a code, and what it means: 0, or the class of an error. */
static int look_up(const char *call, int code, int *class, const char **text) {
    if (find_added(code, class, text)) return MPI_SUCCESS;
    if (code < 0 || code > MPI_ERR_LASTCODE)
        return raise_on(MPI_COMM_WORLD, call, MPI_ERR_ARG, "no such error code: %d", code);
    *class = code;
    *text = class_texts[code];
    return MPI_SUCCESS;
}

int MPI_Error_class(int errorcode, int *errorclass) {
    NOTE_CALLER();
    static const char call[] = "MPI_Error_class";
    const char *text;
    check_running(call);
    int class = check_result(MPI_COMM_WORLD, call, errorclass, "errorclass");
    return class != MPI_SUCCESS ? class : look_up(call, errorcode, errorclass, &text);
}

int MPI_Error_string(int errorcode, char *string, int *resultlen) {
    NOTE_CALLER();
    static const char call[] = "MPI_Error_string";
    const char *text = "";
    int of_code;
    check_running(call);
    int class = check_result(MPI_COMM_WORLD, call, string, "string");
    if (class == MPI_SUCCESS) class = check_result(MPI_COMM_WORLD, call, resultlen, "resultlen");
    if (class == MPI_SUCCESS) class = look_up(call, errorcode, &of_code, &text);
    if (class != MPI_SUCCESS) return class;
    *resultlen = (int)strlen(text);
    memcpy(string, text, strlen(text) + 1);
    return MPI_SUCCESS;
}
