/* Error handlers: see handlers.h. */
#include "handlers.h"

#include "errors.h"
#include "internal.h"
#include "table.h"

#include <stdlib.h>

struct handler {
    MPI_Comm_errhandler_function *function;
    int uses;
};

/* All of them. The first places are those of MPI_ERRHANDLER_NULL's kin: none, and the two that the library has. */
enum { PREDEFINED = 3 };
static struct table handlers = TABLE_OF(KIND_ERRHANDLER);
static struct handler predefined;

static struct handler *handler_of(MPI_Errhandler handle) {
    struct handler *own = table_find(&handlers, (intptr_t)handle);
    return own == &predefined ? NULL : own;
}

static bool is_predefined(MPI_Errhandler handle) {
    return handle == MPI_ERRORS_ARE_FATAL || handle == MPI_ERRORS_RETURN;
}

MPI_Errhandler hold_handler(MPI_Errhandler handler) {
    struct handler *own = handler_of(handler);
    if (own != NULL) own->uses++;
    return handler;
}

void release_handler(MPI_Errhandler handler) {
    struct handler *own = handler_of(handler);
    if (own != NULL && --own->uses == 0) free(table_remove(&handlers, (intptr_t)handler));
}

bool call_handler(const struct communicator *comm, int code) {
    const struct handler *own = handler_of(comm->errhandler);
    if (own == NULL) return false;
    MPI_Comm handle = comm->handle;
    own->function(&handle, &code);
    return true;
}

void close_handlers(void) {
    for (int place = PREDEFINED; place < handlers.count; place++) free(handlers.places[place].object);
    table_free(&handlers);
}

static int add_handler(const char *call, MPI_Comm_errhandler_function *function, MPI_Errhandler *handle) {
    int class = check_result(MPI_COMM_WORLD, call, handle, "errhandler");
    if (class == MPI_SUCCESS) class = check_function(call, function != NULL);
    if (class != MPI_SUCCESS) return class;
    bool is_open = true;
    while (is_open && handlers.count < PREDEFINED) is_open = table_add(&handlers, &predefined) != 0;
    struct handler *made = is_open ? malloc(sizeof *made) : NULL;
    int64_t number = made == NULL ? 0 : table_add(&handlers, made);
    if (number == 0) {
        free(made);
        return raise_on(MPI_COMM_WORLD, call, MPI_ERR_NO_MEM, "no memory for an error handler");
    }
    *made = (struct handler){function, 1};
    *handle = (MPI_Errhandler)(intptr_t)number;
    return MPI_SUCCESS;
}

static int check_handler(MPI_Comm comm, const char *call, MPI_Errhandler handler) {
    if (is_predefined(handler) || handler_of(handler) != NULL) return MPI_SUCCESS;
    return raise_on(comm, call, MPI_ERR_ARG, "no such error handler");
}

int MPI_Comm_create_errhandler(MPI_Comm_errhandler_function *comm_errhandler_fn, MPI_Errhandler *errhandler) {
    NOTE_CALLER();
    check_running("MPI_Comm_create_errhandler");
    return add_handler("MPI_Comm_create_errhandler", comm_errhandler_fn, errhandler);
}

int MPI_Errhandler_create(MPI_Comm_errhandler_function *comm_errhandler_fn, MPI_Errhandler *errhandler) {
    NOTE_CALLER();
    check_running("MPI_Errhandler_create");
    return add_handler("MPI_Errhandler_create", comm_errhandler_fn, errhandler);
}

static int set_errhandler(const char *call, MPI_Comm comm, MPI_Errhandler errhandler) {
    struct communicator *own;
    check_running(call);
    int class = check_comm(comm, call, &own);
    if (class == MPI_SUCCESS) class = check_handler(comm, call, errhandler);
    if (class != MPI_SUCCESS) return class;
    MPI_Errhandler before = own->errhandler;
    own->errhandler = hold_handler(errhandler);
    release_handler(before);
    return MPI_SUCCESS;
}

/* What is answered is a handle of its own, to be freed (8.3). */
static int get_errhandler(const char *call, MPI_Comm comm, MPI_Errhandler *errhandler) {
    struct communicator *own;
    check_running(call);
    int class = check_comm(comm, call, &own);
    if (class == MPI_SUCCESS) class = check_result(comm, call, errhandler, "errhandler");
    if (class == MPI_SUCCESS) *errhandler = hold_handler(own->errhandler);
    return class;
}

int MPI_Comm_set_errhandler(MPI_Comm comm, MPI_Errhandler errhandler) {
    NOTE_CALLER();
    return set_errhandler("MPI_Comm_set_errhandler", comm, errhandler);
}

int MPI_Comm_get_errhandler(MPI_Comm comm, MPI_Errhandler *errhandler) {
    NOTE_CALLER();
    return get_errhandler("MPI_Comm_get_errhandler", comm, errhandler);
}

int MPI_Errhandler_set(MPI_Comm comm, MPI_Errhandler errhandler) {
    NOTE_CALLER();
    return set_errhandler("MPI_Errhandler_set", comm, errhandler);
}

int MPI_Errhandler_get(MPI_Comm comm, MPI_Errhandler *errhandler) {
    NOTE_CALLER();
    return get_errhandler("MPI_Errhandler_get", comm, errhandler);
}

int MPI_Errhandler_free(MPI_Errhandler *errhandler) {
    NOTE_CALLER();
    static const char call[] = "MPI_Errhandler_free";
    check_running(call);
    int class = check_result(MPI_COMM_WORLD, call, errhandler, "errhandler");
    if (class == MPI_SUCCESS) class = check_handler(MPI_COMM_WORLD, call, *errhandler);
    if (class != MPI_SUCCESS) return class;
    release_handler(*errhandler);
    *errhandler = MPI_ERRHANDLER_NULL;
    return MPI_SUCCESS;
}

int MPI_Comm_call_errhandler(MPI_Comm comm, int errorcode) {
    NOTE_CALLER();
    static const char call[] = "MPI_Comm_call_errhandler";
    struct communicator *own;
    check_running(call);
    int class = check_comm(comm, call, &own);
    if (class == MPI_SUCCESS) (void)raise_in(own, call, errorcode, "code %d", errorcode);
    return class;
}

/* Handles as Fortran has them (17.2.4). */
MPI_Fint MPI_Errhandler_c2f(MPI_Errhandler errhandler) {
    NOTE_CALLER();
    return (MPI_Fint)(intptr_t)errhandler;
}
MPI_Errhandler MPI_Errhandler_f2c(MPI_Fint errhandler) {
    NOTE_CALLER();
    int64_t number = table_number(&handlers, (uint32_t)errhandler);
    return (MPI_Errhandler)(intptr_t)(number == 0 ? errhandler : number);
}
