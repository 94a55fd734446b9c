/* Attributes of types (MPI 3.1, 6.7.4). */
#include "attributes.h"
#include "errors.h"
#include "internal.h"
#include "types.h"

#include <stdlib.h>
#include <string.h>

/* The types that values are kept with. */
struct kept {
    MPI_Datatype type;
    struct attribute *values;
    struct kept *next;
};
static struct kept *all_kept;

static struct owner owner_of(MPI_Datatype type) { return (struct owner){.type = type}; }

/* What is kept with a type, or NULL: nothing is. */
static struct kept *kept_with(MPI_Datatype type) {
    struct kept *it = all_kept;
    while (it != NULL && it->type != type) it = it->next;
    return it;
}

struct attribute *values_of_type(MPI_Datatype type) {
    const struct kept *own = kept_with(type);
    return own == NULL ? NULL : own->values;
}

/* The same, which is there from now on; NULL: there is no memory. */
static struct kept *keep_with(MPI_Datatype type) {
    struct kept *own = kept_with(type);
    if (own != NULL) return own;
    own = calloc(1, sizeof *own);
    if (own == NULL) return NULL;
    *own = (struct kept){type, NULL, all_kept};
    return all_kept = own;
}

void close_type_values(void) {
    while (all_kept != NULL) {
        struct kept *next = all_kept->next;
        forget_attributes(&all_kept->values);
        free(all_kept);
        all_kept = next;
    }
}

static int check_owner(const char *call, MPI_Datatype type, struct datatype **found) {
    check_running(call);
    return check_any_type(call, type, found);
}

int MPI_Type_create_keyval(MPI_Type_copy_attr_function *type_copy_attr_fn,
                           MPI_Type_delete_attr_function *type_delete_attr_fn, int *type_keyval, void *extra_state) {
    NOTE_CALLER();
    static const char call[] = "MPI_Type_create_keyval";
    check_running(call);
    const struct keyval made = {
        .is_of_types = true, .extra_state = extra_state, .functions.type = {type_copy_attr_fn, type_delete_attr_fn}};
    int class = check_result(MPI_COMM_WORLD, call, type_keyval, "type_keyval");
    return class != MPI_SUCCESS ? class : add_keyval(call, &made, type_keyval);
}

int MPI_Type_free_keyval(int *type_keyval) {
    NOTE_CALLER();
    return free_keyval("MPI_Type_free_keyval", type_keyval, true);
}

int MPI_Type_set_attr(MPI_Datatype datatype, int type_keyval, void *attribute_val) {
    NOTE_CALLER();
    static const char call[] = "MPI_Type_set_attr";
    struct datatype *own;
    struct keyval *keyval;
    int class = check_owner(call, datatype, &own);
    if (class == MPI_SUCCESS) class = check_keyval(call, type_keyval, true, &keyval);
    if (class == MPI_SUCCESS) class = check_settable(MPI_COMM_WORLD, call, keyval);
    if (class != MPI_SUCCESS) return class;
    struct kept *kept = keep_with(datatype);
    int answer = kept == NULL ? -1 : set_attribute(owner_of(datatype), &kept->values, keyval, attribute_val);
    return raise_attribute(MPI_COMM_WORLD, call, answer);
}

int MPI_Type_get_attr(MPI_Datatype datatype, int type_keyval, void *attribute_val, int *flag) {
    NOTE_CALLER();
    static const char call[] = "MPI_Type_get_attr";
    struct datatype *own;
    struct keyval *keyval;
    int class = check_owner(call, datatype, &own);
    if (class == MPI_SUCCESS) class = check_keyval(call, type_keyval, true, &keyval);
    if (class == MPI_SUCCESS) class = check_result(MPI_COMM_WORLD, call, attribute_val, "attribute_val");
    if (class == MPI_SUCCESS) class = check_result(MPI_COMM_WORLD, call, flag, "flag");
    if (class != MPI_SUCCESS) return class;
    const struct attribute *it = attribute_of(values_of_type(datatype), keyval);
    *flag = it != NULL;
    if (it != NULL) memcpy(attribute_val, &it->value, sizeof it->value);
    return MPI_SUCCESS;
}

int MPI_Type_delete_attr(MPI_Datatype datatype, int type_keyval) {
    NOTE_CALLER();
    static const char call[] = "MPI_Type_delete_attr";
    struct datatype *own;
    struct keyval *keyval;
    int class = check_owner(call, datatype, &own);
    if (class == MPI_SUCCESS) class = check_keyval(call, type_keyval, true, &keyval);
    if (class != MPI_SUCCESS) return class;
    struct attribute *it = attribute_of(values_of_type(datatype), keyval);
    if (it == NULL) return raise_on(MPI_COMM_WORLD, call, MPI_ERR_KEYVAL, "no value under the key");
    return raise_attribute(MPI_COMM_WORLD, call,
                           delete_attribute(owner_of(datatype), &kept_with(datatype)->values, it));
}

int copy_type_values(MPI_Datatype from, const char *call, MPI_Datatype to) {
    struct attribute *values = values_of_type(from);
    if (values == NULL) return MPI_SUCCESS;
    struct kept *copies = keep_with(to);
    int answer = copies == NULL ? -1 : copy_attributes(owner_of(from), values, owner_of(to), &copies->values);
    return raise_attribute(MPI_COMM_WORLD, call, answer);
}

int delete_type_values(MPI_Datatype type, const char *call) {
    struct kept *own = kept_with(type), **at = &all_kept;
    if (own == NULL) return MPI_SUCCESS;
    int answer = delete_attributes(owner_of(type), &own->values);
    if (answer != MPI_SUCCESS) return raise_attribute(MPI_COMM_WORLD, call, answer);
    while (*at != own) at = &(*at)->next;
    *at = own->next;
    free(own);
    return MPI_SUCCESS;
}

/* ---- the functions of the library ---- */

int MPI_TYPE_NULL_COPY_FN(MPI_Datatype oldtype, int type_keyval, void *extra_state, void *attribute_val_in,
                          void *attribute_val_out, int *flag) {
    (void)oldtype, (void)type_keyval, (void)extra_state, (void)attribute_val_in, (void)attribute_val_out;
    *flag = 0;
    return MPI_SUCCESS;
}

int MPI_TYPE_DUP_FN(MPI_Datatype oldtype, int type_keyval, void *extra_state, void *attribute_val_in,
                    void *attribute_val_out, int *flag) {
    (void)oldtype, (void)type_keyval, (void)extra_state;
    memcpy(attribute_val_out, &attribute_val_in, sizeof attribute_val_in);
    *flag = 1;
    return MPI_SUCCESS;
}

int MPI_TYPE_NULL_DELETE_FN(MPI_Datatype type, int type_keyval, void *attribute_val, void *extra_state) {
    (void)type, (void)type_keyval, (void)attribute_val, (void)extra_state;
    return MPI_SUCCESS;
}
