/* Attributes of communicators (MPI 3.1, 6.7.2), those that the library sets (8.1.2, 8.5), and the names of MPI-1. */
#include "attributes.h"
#include "communicators.h"
#include "error_codes.h"
#include "errors.h"
#include "internal.h"

#include <limits.h>
#include <string.h>

static struct owner owner_of(MPI_Comm comm) { return (struct owner){.comm = comm}; }

/* ---- what the library sets: an address of an integer each ---- */

static int tag_ub = INT_MAX, host = MPI_PROC_NULL, io = MPI_ANY_SOURCE, wtime_is_global, universe_size, last_used_code;

/* Where its value is, or NULL: the library doesn't know it, or it isn't one of them. */
static int *value_set(int keyval) {
    universe_size = process.size;
    last_used_code = last_error_code();
    switch (keyval) {
    case MPI_TAG_UB:
        return &tag_ub;
    case MPI_HOST:
        return &host;
    case MPI_IO:
        return &io;
    case MPI_WTIME_IS_GLOBAL:
        return &wtime_is_global;
    case MPI_UNIVERSE_SIZE:
        return &universe_size;
    case MPI_LASTUSEDCODE:
        return &last_used_code;
    default:
        return NULL;
    }
}

static bool is_predefined(int keyval) { return keyval >= MPI_TAG_UB && keyval <= MPI_APPNUM; }

/* ---- keys ---- */

static int create_keyval(const char *call, MPI_Comm_copy_attr_function *copy, MPI_Comm_delete_attr_function *delete,
                         int *keyval, void *extra_state) {
    check_running(call);
    const struct keyval made = {.extra_state = extra_state, .functions.comm = {copy, delete}};
    int class = check_result(MPI_COMM_WORLD, call, keyval, "keyval");
    return class != MPI_SUCCESS ? class : add_keyval(call, &made, keyval);
}

int MPI_Comm_create_keyval(MPI_Comm_copy_attr_function *comm_copy_attr_fn,
                           MPI_Comm_delete_attr_function *comm_delete_attr_fn, int *comm_keyval, void *extra_state) {
    NOTE_CALLER();
    return create_keyval("MPI_Comm_create_keyval", comm_copy_attr_fn, comm_delete_attr_fn, comm_keyval, extra_state);
}

int MPI_Keyval_create(MPI_Copy_function *copy_fn, MPI_Delete_function *delete_fn, int *keyval, void *extra_state) {
    NOTE_CALLER();
    return create_keyval("MPI_Keyval_create", copy_fn, delete_fn, keyval, extra_state);
}

int MPI_Comm_free_keyval(int *comm_keyval) {
    NOTE_CALLER();
    return free_keyval("MPI_Comm_free_keyval", comm_keyval, false);
}

int MPI_Keyval_free(int *keyval) {
    NOTE_CALLER();
    return free_keyval("MPI_Keyval_free", keyval, false);
}

/* ---- values ---- */

static int set_value(const char *call, MPI_Comm comm, int number, void *value) {
    struct communicator *own;
    struct keyval *keyval;
    check_running(call);
    int class = check_comm(comm, call, &own);
    if (class == MPI_SUCCESS && is_predefined(number))
        return raise_on(comm, call, MPI_ERR_KEYVAL, "what the library sets can't be changed");
    if (class == MPI_SUCCESS) class = check_keyval(call, number, false, &keyval);
    if (class == MPI_SUCCESS) class = check_settable(comm, call, keyval);
    if (class != MPI_SUCCESS) return class;
    return raise_attribute(comm, call, set_attribute(owner_of(comm), &own->attributes, keyval, value));
}

static int get_value(const char *call, MPI_Comm comm, int number, void *into, int *flag) {
    struct communicator *own;
    struct keyval *keyval;
    void *value = NULL;
    check_running(call);
    int class = check_comm(comm, call, &own);
    if (class == MPI_SUCCESS) class = check_result(comm, call, into, "attribute_val");
    if (class == MPI_SUCCESS) class = check_result(comm, call, flag, "flag");
    if (class == MPI_SUCCESS && is_predefined(number)) {
        value = value_set(number);
        *flag = value != NULL;
    } else if (class == MPI_SUCCESS) {
        class = check_keyval(call, number, false, &keyval);
        if (class != MPI_SUCCESS) return class;
        const struct attribute *it = attribute_of(own->attributes, keyval);
        if (it != NULL) value = it->value;
        *flag = it != NULL;
    }
    if (class == MPI_SUCCESS && *flag) memcpy(into, &value, sizeof value);
    return class;
}

static int delete_value(const char *call, MPI_Comm comm, int number) {
    struct communicator *own;
    struct keyval *keyval;
    check_running(call);
    int class = check_comm(comm, call, &own);
    if (class == MPI_SUCCESS) class = check_keyval(call, number, false, &keyval);
    if (class != MPI_SUCCESS) return class;
    struct attribute *it = attribute_of(own->attributes, keyval);
    if (it == NULL) return raise_on(comm, call, MPI_ERR_KEYVAL, "no value under the key");
    return raise_attribute(comm, call, delete_attribute(owner_of(comm), &own->attributes, it));
}

int MPI_Comm_set_attr(MPI_Comm comm, int comm_keyval, void *attribute_val) {
    NOTE_CALLER();
    return set_value("MPI_Comm_set_attr", comm, comm_keyval, attribute_val);
}

int MPI_Comm_get_attr(MPI_Comm comm, int comm_keyval, void *attribute_val, int *flag) {
    NOTE_CALLER();
    return get_value("MPI_Comm_get_attr", comm, comm_keyval, attribute_val, flag);
}

int MPI_Comm_delete_attr(MPI_Comm comm, int comm_keyval) {
    NOTE_CALLER();
    return delete_value("MPI_Comm_delete_attr", comm, comm_keyval);
}

int MPI_Attr_put(MPI_Comm comm, int keyval, void *attribute_val) {
    NOTE_CALLER();
    return set_value("MPI_Attr_put", comm, keyval, attribute_val);
}

int MPI_Attr_get(MPI_Comm comm, int keyval, void *attribute_val, int *flag) {
    NOTE_CALLER();
    return get_value("MPI_Attr_get", comm, keyval, attribute_val, flag);
}

int MPI_Attr_delete(MPI_Comm comm, int keyval) {
    NOTE_CALLER();
    return delete_value("MPI_Attr_delete", comm, keyval);
}

/* ---- copies and ends of communicators ---- */

int copy_values(MPI_Comm from, const char *call, MPI_Comm to) {
    const struct communicator *own = communicator_of(from);
    struct communicator *copy = communicator_of(to);
    return raise_attribute(from, call,
                           copy_attributes(owner_of(from), own->attributes, owner_of(to), &copy->attributes));
}

int delete_values(MPI_Comm comm, const char *call) {
    struct communicator *own = communicator_of(comm);
    return raise_attribute(comm, call, delete_attributes(owner_of(comm), &own->attributes));
}

/* ---- the functions of the library ---- */

int MPI_COMM_NULL_COPY_FN(MPI_Comm oldcomm, int comm_keyval, void *extra_state, void *attribute_val_in,
                          void *attribute_val_out, int *flag) {
    (void)oldcomm, (void)comm_keyval, (void)extra_state, (void)attribute_val_in, (void)attribute_val_out;
    *flag = 0;
    return MPI_SUCCESS;
}

int MPI_COMM_DUP_FN(MPI_Comm oldcomm, int comm_keyval, void *extra_state, void *attribute_val_in,
                    void *attribute_val_out, int *flag) {
    (void)oldcomm, (void)comm_keyval, (void)extra_state;
    memcpy(attribute_val_out, &attribute_val_in, sizeof attribute_val_in);
    *flag = 1;
    return MPI_SUCCESS;
}

int MPI_COMM_NULL_DELETE_FN(MPI_Comm comm, int comm_keyval, void *attribute_val, void *extra_state) {
    (void)comm, (void)comm_keyval, (void)attribute_val, (void)extra_state;
    return MPI_SUCCESS;
}
