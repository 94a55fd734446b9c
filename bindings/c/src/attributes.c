/* Attributes: see attributes.h. */
#include "attributes.h"

#include "errors.h"
#include "table.h"

#include <stdint.h>
#include <stdlib.h>

static struct table keyvals = TABLE_OF(KIND_KEYVAL);

/* ---- keys ---- */

static void release_keyval(struct keyval *keyval) {
    if (--keyval->uses > 0) return;
    table_remove(&keyvals, table_number(&keyvals, (uint32_t)keyval->number));
    free(keyval);
}

void close_keyvals(void) {
    for (int place = 0; place < keyvals.count; place++) free(keyvals.places[place].object);
    table_free(&keyvals);
}

int add_keyval(const char *call, const struct keyval *keyval, int *number) {
    struct keyval *made = malloc(sizeof *made);
    int64_t handle = made == NULL ? 0 : table_add(&keyvals, made);
    if (handle == 0) {
        free(made);
        return raise_on(MPI_COMM_WORLD, call, MPI_ERR_NO_MEM, "no memory for a key");
    }
    *made = *keyval;
    made->uses = 1;
    *number = made->number = (int)(uint32_t)handle;
    return MPI_SUCCESS;
}

/* A key has the low half of its number alone: which of those that had its place is told by nothing. It names the key as
 * long as a value is kept under it, also where the program has freed it (6.7.2). */
static struct keyval *keyval_of(int number) { return table_find(&keyvals, table_number(&keyvals, (uint32_t)number)); }

int check_keyval(const char *call, int number, bool is_of_types, struct keyval **found) {
    *found = keyval_of(number);
    if (*found != NULL && (*found)->is_of_types == is_of_types) return MPI_SUCCESS;
    const char *whose = is_of_types ? "types" : "communicators";
    if (number == MPI_KEYVAL_INVALID)
        return raise_on(MPI_COMM_WORLD, call, MPI_ERR_KEYVAL, "the key is MPI_KEYVAL_INVALID");
    return raise_on(MPI_COMM_WORLD, call, MPI_ERR_KEYVAL, "%d is no key of %s of the program's", number, whose);
}

int free_keyval(const char *call, int *number, bool is_of_types) {
    struct keyval *own;
    check_running(call);
    int class = check_result(MPI_COMM_WORLD, call, number, "keyval");
    if (class == MPI_SUCCESS) class = check_keyval(call, *number, is_of_types, &own);
    if (class != MPI_SUCCESS) return class;
    if (!own->is_freed) {
        own->is_freed = true;
        release_keyval(own);
    }
    *number = MPI_KEYVAL_INVALID;
    return MPI_SUCCESS;
}

/* ---- values ---- */

struct attribute *attribute_of(struct attribute *list, const struct keyval *keyval) {
    for (struct attribute *it = list; it != NULL; it = it->next)
        if (it->keyval == keyval && !it->is_leaving) return it;
    return NULL;
}

/* Takes a value out of the list and gives it back. */
static void remove_attribute(struct attribute **list, struct attribute *attribute) {
    struct attribute **at = list;
    while (*at != attribute) at = &(*at)->next;
    *at = attribute->next;
    release_keyval(attribute->keyval);
    free(attribute);
}

void take_numbers(int number) {
    struct keyval *own = keyval_of(number);
    if (own != NULL) own->takes_numbers = true;
}

struct attribute *find_attribute(struct attribute *list, int number) {
    const struct keyval *keyval = keyval_of(number);
    return keyval == NULL ? NULL : attribute_of(list, keyval);
}

/* From now on the value is this number, whose address C gets. */
static void become_number(struct attribute *it, MPI_Aint number) {
    it->number = number;
    it->is_number = true;
    it->value = &it->number;
}

void keep_number(struct attribute *it) {
    if (it != NULL) become_number(it, (MPI_Aint)(intptr_t)it->value);
}

MPI_Aint value_as_number(const struct attribute *it) {
    if (it == NULL) return 0;
    return it->is_number ? it->number : (MPI_Aint)(intptr_t)it->value;
}

/* A value as the functions of its key take it. */
static void *handed(const struct attribute *it) {
    return it->keyval->takes_numbers ? (void *)(intptr_t)value_as_number(it) : it->value;
}

/* Calls the delete function of a key with a value. */
static int call_delete(struct owner owner, const struct attribute *it) {
    const struct keyval *key = it->keyval;
    if (key->is_of_types) {
        if (key->functions.type.delete == NULL) return MPI_SUCCESS;
        return key->functions.type.delete(owner.type, key->number, handed(it), key->extra_state);
    }
    if (key->functions.comm.delete == NULL) return MPI_SUCCESS;
    return key->functions.comm.delete(owner.comm, key->number, handed(it), key->extra_state);
}

/* Calls the copy function of a key with a value. */
static int call_copy(struct owner owner, const struct attribute *it, void **value, int *flag) {
    const struct keyval *key = it->keyval;
    *flag = 0;
    if (key->is_of_types) {
        if (key->functions.type.copy == NULL) return MPI_SUCCESS;
        return key->functions.type.copy(owner.type, key->number, key->extra_state, handed(it), value, flag);
    }
    if (key->functions.comm.copy == NULL) return MPI_SUCCESS;
    return key->functions.comm.copy(owner.comm, key->number, key->extra_state, handed(it), value, flag);
}

int delete_attribute(struct owner owner, struct attribute **list, struct attribute *attribute) {
    attribute->is_leaving = true;
    int answer = call_delete(owner, attribute);
    attribute->is_leaving = false;
    if (answer == MPI_SUCCESS) remove_attribute(list, attribute);
    return answer;
}

/* Puts a value in front of a list: false where there is no memory. */
static bool put_attribute(struct attribute **list, struct keyval *keyval, void *value) {
    struct attribute *made = malloc(sizeof *made);
    if (made == NULL) return false;
    *made = (struct attribute){.keyval = keyval, .value = value, .next = *list};
    keyval->uses++;
    *list = made;
    return true;
}

int check_settable(MPI_Comm comm, const char *call, const struct keyval *keyval) {
    return !keyval->is_freed ? MPI_SUCCESS : raise_on(comm, call, MPI_ERR_KEYVAL, "the key was freed");
}

int set_attribute(struct owner owner, struct attribute **list, struct keyval *keyval, void *value) {
    struct attribute *own = attribute_of(*list, keyval);
    if (own == NULL) return put_attribute(list, keyval, value) ? MPI_SUCCESS : -1;
    own->is_leaving = true;
    int answer = call_delete(owner, own);
    own->is_leaving = false;
    if (answer == MPI_SUCCESS) own->value = value;
    if (answer == MPI_SUCCESS) own->is_number = false;
    return answer;
}

int delete_attributes(struct owner owner, struct attribute **list) {
    int answer = MPI_SUCCESS;
    while (answer == MPI_SUCCESS && *list != NULL) answer = delete_attribute(owner, list, *list);
    return answer;
}

/* Puts the copy of a value in front of a list. It is a number where the value is one that Fortran's function copied, or
 * that was handed on as it is. */
static bool put_copy(struct attribute **list, const struct attribute *of, void *value) {
    const bool is_same = value == handed(of), is_number = of->is_number && (of->keyval->takes_numbers || is_same);
    if (!put_attribute(list, of->keyval, value)) return false;
    if (is_number) become_number(*list, is_same ? of->number : (MPI_Aint)(intptr_t)value);
    return true;
}

/* Copies a value and, before it, those that were set before it. */
static int copy_from(struct owner from, struct attribute *it, struct attribute **copies) {
    void *value = NULL;
    int flag;
    if (it == NULL) return MPI_SUCCESS;
    int answer = copy_from(from, it->next, copies);
    if (answer == MPI_SUCCESS) answer = call_copy(from, it, &value, &flag);
    if (answer != MPI_SUCCESS || !flag) return answer;
    return put_copy(copies, it, value) ? MPI_SUCCESS : -1;
}

int copy_attributes(struct owner from, struct attribute *list, struct owner to, struct attribute **copies) {
    *copies = NULL;
    int answer = copy_from(from, list, copies);
    if (answer != MPI_SUCCESS) (void)delete_attributes(to, copies);
    if (answer != MPI_SUCCESS) forget_attributes(copies);
    return answer;
}

int raise_attribute(MPI_Comm comm, const char *call, int answer) {
    if (answer == MPI_SUCCESS) return MPI_SUCCESS;
    if (answer == -1) return raise_on(comm, call, MPI_ERR_NO_MEM, "no memory for an attribute");
    return raise_on(comm, call, MPI_ERR_OTHER, "a function of an attribute's key answered %d", answer);
}

void forget_attributes(struct attribute **list) {
    while (*list != NULL) remove_attribute(list, *list);
}
