/* Info objects (MPI 3.1, 9): keys and values, both texts, in the order in which keys were first set. */
#include "info.h"

#include "errors.h"
#include "internal.h"
#include "table.h"

#include <stdio.h>
#include <stdlib.h>
#include <string.h>

struct entry {
    char key[MPI_MAX_INFO_KEY];
    char value[MPI_MAX_INFO_VAL];
};

struct info {
    int count, room;
    struct entry *entries;
};

/* All of them; the first place is that of MPI_INFO_ENV, which the program doesn't change. */
static struct table infos = TABLE_OF(KIND_INFO);
static struct info environment;

static void free_info(struct info *info) {
    free(info->entries);
    *info = (struct info){0};
}

void close_infos(void) { free_info(&environment); }

/* ---- entries ---- */

static struct entry *entry_of(const struct info *info, const char *key) {
    for (int at = 0; at < info->count; at++)
        if (strcmp(info->entries[at].key, key) == 0) return &info->entries[at];
    return NULL;
}

/* Puts an entry in, or a key's value in the place of another one: false where there is no memory. Both fit. */
static bool put_entry(struct info *info, const char *key, const char *value) {
    struct entry *own = entry_of(info, key);
    if (own == NULL && info->count == info->room) {
        const int room = info->room == 0 ? 4 : 2 * info->room;
        struct entry *entries = realloc(info->entries, (size_t)room * sizeof *entries);
        if (entries == NULL) return false;
        info->entries = entries;
        info->room = room;
    }
    if (own == NULL) own = &info->entries[info->count++];
    memmove(own->key, key, strlen(key) + 1);
    memmove(own->value, value, strlen(value) + 1);
    return true;
}

/* The words of the program, with one blank between two, as many as fit. */
static void join_words(char *argv[], char *text) {
    size_t length = 0;
    text[0] = '\0';
    for (int at = 1; argv[0] != NULL && argv[at] != NULL && length < MPI_MAX_INFO_VAL; at++)
        length += (size_t)snprintf(text + length, MPI_MAX_INFO_VAL - length, "%s%s", at > 1 ? " " : "", argv[at]);
}

/* What is known of how the program was started (9): of these keys those that are known. */
static bool put_start(struct info *info, int argc, char *argv[]) {
    static const char *const levels[] = {"MPI_THREAD_SINGLE", "MPI_THREAD_FUNNELED", "MPI_THREAD_SERIALIZED",
                                         "MPI_THREAD_MULTIPLE"};
    char text[MPI_MAX_INFO_VAL];
    bool is_done = true;
    if (argc > 0 && argv != NULL && argv[0] != NULL) {
        snprintf(text, sizeof text, "%s", argv[0]);
        is_done = put_entry(info, "command", text);
        join_words(argv, text);
        is_done = is_done && put_entry(info, "argv", text);
    }
    snprintf(text, sizeof text, "%d", process.size);
    is_done = is_done && put_entry(info, "maxprocs", text);
    return is_done && put_entry(info, "thread_level", levels[process.thread_level & 3]);
}

void open_infos(int argc, char *argv[]) { (void)put_start(&environment, argc, argv); }

/* ---- checks ---- */

/* These calls are free to come before MPI_Init and behind MPI_Finalize (MPI 4.0, 11.4.1). */
static void note_call(const char *call) { process.call = call; }

static int check_info(const char *call, MPI_Info handle, struct info **found) {
    note_call(call);
    *found = handle == MPI_INFO_ENV ? &environment : table_find(&infos, (intptr_t)handle);
    if (*found != NULL) return MPI_SUCCESS;
    const char *cause = handle == MPI_INFO_NULL ? "the info object is MPI_INFO_NULL" : "no such info object";
    return raise_on(MPI_COMM_WORLD, call, MPI_ERR_INFO, "%s", cause);
}

/* The same of one that is to be changed. */
static int check_own(const char *call, MPI_Info handle, struct info **found) {
    int class = check_info(call, handle, found);
    if (class != MPI_SUCCESS || handle != MPI_INFO_ENV) return class;
    return raise_on(MPI_COMM_WORLD, call, MPI_ERR_INFO, "MPI_INFO_ENV can't be changed");
}

static int check_key(const char *call, const char *key) {
    if (key != NULL && key[0] != '\0' && memchr(key, '\0', MPI_MAX_INFO_KEY) != NULL) return MPI_SUCCESS;
    const char *cause = key == NULL ? "the key is NULL" : key[0] == '\0' ? "the key is empty" : "the key is too long";
    return raise_on(MPI_COMM_WORLD, call, MPI_ERR_INFO_KEY, "%s", cause);
}

static int check_value(const char *call, const char *value) {
    if (value != NULL && memchr(value, '\0', MPI_MAX_INFO_VAL) != NULL) return MPI_SUCCESS;
    const char *cause = value == NULL ? "the value is NULL" : "the value is too long";
    return raise_on(MPI_COMM_WORLD, call, MPI_ERR_INFO_VALUE, "%s", cause);
}

static int no_memory(const char *call) {
    return raise_on(MPI_COMM_WORLD, call, MPI_ERR_NO_MEM, "no memory for an info object");
}

/* ---- the calls ---- */

int add_info(const char *call, struct info **made, MPI_Info *handle) {
    if (infos.count == 0 && table_add(&infos, &environment) == 0) return no_memory(call);
    *made = calloc(1, sizeof **made);
    int64_t number = *made == NULL ? 0 : table_add(&infos, *made);
    if (number == 0) {
        free(*made);
        return no_memory(call);
    }
    *handle = (MPI_Info)(intptr_t)number;
    return MPI_SUCCESS;
}

int MPI_Info_create(MPI_Info *info) {
    NOTE_CALLER();
    static const char call[] = "MPI_Info_create";
    struct info *made;
    note_call(call);
    int class = check_result(MPI_COMM_WORLD, call, info, "info");
    return class != MPI_SUCCESS ? class : add_info(call, &made, info);
}

int MPI_Info_create_env(int argc, char *argv[], MPI_Info *info) {
    NOTE_CALLER();
    static const char call[] = "MPI_Info_create_env";
    struct info *made;
    note_call(call);
    int class = check_result(MPI_COMM_WORLD, call, info, "info");
    if (class == MPI_SUCCESS) class = add_info(call, &made, info);
    if (class != MPI_SUCCESS) return class;
    return put_start(made, argc, argv) ? MPI_SUCCESS : no_memory(call);
}

int MPI_Info_dup(MPI_Info info, MPI_Info *newinfo) {
    NOTE_CALLER();
    static const char call[] = "MPI_Info_dup";
    struct info *own, *made;
    int class = check_info(call, info, &own);
    if (class == MPI_SUCCESS) class = check_result(MPI_COMM_WORLD, call, newinfo, "newinfo");
    if (class == MPI_SUCCESS) class = add_info(call, &made, newinfo);
    for (int at = 0; class == MPI_SUCCESS && at < own->count; at++)
        if (!put_entry(made, own->entries[at].key, own->entries[at].value)) class = no_memory(call);
    return class;
}

int MPI_Info_free(MPI_Info *info) {
    NOTE_CALLER();
    static const char call[] = "MPI_Info_free";
    struct info *own;
    note_call(call);
    int class = check_result(MPI_COMM_WORLD, call, info, "info");
    if (class == MPI_SUCCESS) class = check_own(call, *info, &own);
    if (class != MPI_SUCCESS) return class;
    table_remove(&infos, (intptr_t)*info);
    free_info(own);
    free(own);
    *info = MPI_INFO_NULL;
    return MPI_SUCCESS;
}

int set_info(const char *call, MPI_Info info, const char *key, const char *value) {
    struct info *own;
    int class = check_own(call, info, &own);
    if (class == MPI_SUCCESS && !put_entry(own, key, value)) class = no_memory(call);
    return class;
}

const char *info_value(MPI_Info info, const char *key) {
    const struct info *own = table_find(&infos, (intptr_t)info);
    const struct entry *entry = own == NULL ? NULL : entry_of(own, key);
    return entry == NULL ? NULL : entry->value;
}

int MPI_Info_set(MPI_Info info, const char *key, const char *value) {
    NOTE_CALLER();
    static const char call[] = "MPI_Info_set";
    struct info *own;
    int class = check_own(call, info, &own);
    if (class == MPI_SUCCESS) class = check_key(call, key);
    if (class == MPI_SUCCESS) class = check_value(call, value);
    if (class != MPI_SUCCESS) return class;
    return put_entry(own, key, value) ? MPI_SUCCESS : no_memory(call);
}

int MPI_Info_delete(MPI_Info info, const char *key) {
    NOTE_CALLER();
    static const char call[] = "MPI_Info_delete";
    struct info *own;
    int class = check_own(call, info, &own);
    if (class == MPI_SUCCESS) class = check_key(call, key);
    if (class != MPI_SUCCESS) return class;
    struct entry *entry = entry_of(own, key);
    if (entry == NULL) return raise_on(MPI_COMM_WORLD, call, MPI_ERR_INFO_NOKEY, "no key %s", key);
    const ptrdiff_t behind = own->entries + own->count - (entry + 1);
    memmove(entry, entry + 1, (size_t)behind * sizeof *entry);
    own->count--;
    return MPI_SUCCESS;
}

/* What the calls that read one key begin with: its entry, or NULL. */
static int find_entry(const char *call, MPI_Info info, const char *key, int *flag, const struct entry **found) {
    struct info *own;
    int class = check_info(call, info, &own);
    if (class == MPI_SUCCESS) class = check_key(call, key);
    if (class == MPI_SUCCESS) class = check_result(MPI_COMM_WORLD, call, flag, "flag");
    if (class != MPI_SUCCESS) return class;
    *found = entry_of(own, key);
    *flag = *found != NULL;
    return MPI_SUCCESS;
}

/* Copies as much of a value as has room with the byte behind it. */
static void copy_value(char *into, const char *value, size_t room) {
    const size_t length = strlen(value) < room ? strlen(value) : room - 1;
    memcpy(into, value, length);
    into[length] = '\0';
}

int MPI_Info_get(MPI_Info info, const char *key, int valuelen, char *value, int *flag) {
    NOTE_CALLER();
    static const char call[] = "MPI_Info_get";
    const struct entry *entry;
    int class = find_entry(call, info, key, flag, &entry);
    if (class == MPI_SUCCESS && valuelen < 0)
        class = raise_on(MPI_COMM_WORLD, call, MPI_ERR_ARG, "room for %d characters", valuelen);
    if (class == MPI_SUCCESS) class = check_result(MPI_COMM_WORLD, call, value, "value");
    if (class == MPI_SUCCESS && entry != NULL) copy_value(value, entry->value, (size_t)valuelen + 1);
    return class;
}

int MPI_Info_get_string(MPI_Info info, const char *key, int *buflen, char *value, int *flag) {
    NOTE_CALLER();
    static const char call[] = "MPI_Info_get_string";
    const struct entry *entry;
    int class = find_entry(call, info, key, flag, &entry);
    if (class == MPI_SUCCESS) class = check_result(MPI_COMM_WORLD, call, buflen, "buflen");
    if (class == MPI_SUCCESS && *buflen < 0)
        class = raise_on(MPI_COMM_WORLD, call, MPI_ERR_ARG, "room for %d characters", *buflen);
    if (class == MPI_SUCCESS && *buflen > 0) class = check_result(MPI_COMM_WORLD, call, value, "value");
    if (class != MPI_SUCCESS || entry == NULL) return class;
    if (*buflen > 0) copy_value(value, entry->value, (size_t)*buflen);
    *buflen = (int)strlen(entry->value) + 1;
    return MPI_SUCCESS;
}

int MPI_Info_get_valuelen(MPI_Info info, const char *key, int *valuelen, int *flag) {
    NOTE_CALLER();
    static const char call[] = "MPI_Info_get_valuelen";
    const struct entry *entry;
    int class = find_entry(call, info, key, flag, &entry);
    if (class == MPI_SUCCESS) class = check_result(MPI_COMM_WORLD, call, valuelen, "valuelen");
    if (class == MPI_SUCCESS && entry != NULL) *valuelen = (int)strlen(entry->value);
    return class;
}

int MPI_Info_get_nkeys(MPI_Info info, int *nkeys) {
    NOTE_CALLER();
    static const char call[] = "MPI_Info_get_nkeys";
    struct info *own;
    int class = check_info(call, info, &own);
    if (class == MPI_SUCCESS) class = check_result(MPI_COMM_WORLD, call, nkeys, "nkeys");
    if (class == MPI_SUCCESS) *nkeys = own->count;
    return class;
}

int MPI_Info_get_nthkey(MPI_Info info, int n, char *key) {
    NOTE_CALLER();
    static const char call[] = "MPI_Info_get_nthkey";
    struct info *own;
    int class = check_info(call, info, &own);
    if (class == MPI_SUCCESS) class = check_result(MPI_COMM_WORLD, call, key, "key");
    if (class != MPI_SUCCESS) return class;
    if (n < 0 || n >= own->count) return raise_on(MPI_COMM_WORLD, call, MPI_ERR_ARG, "key %d of %d", n, own->count);
    memcpy(key, own->entries[n].key, strlen(own->entries[n].key) + 1);
    return MPI_SUCCESS;
}

int check_hints(MPI_Comm comm, const char *call, MPI_Info info) {
    if (info == MPI_INFO_NULL || info == MPI_INFO_ENV || table_find(&infos, (intptr_t)info) != NULL) return MPI_SUCCESS;
    return raise_on(comm, call, MPI_ERR_INFO, "no such info object");
}

/* Handles as Fortran has them (17.2.4). */
MPI_Fint MPI_Info_c2f(MPI_Info info) {
    NOTE_CALLER();
    return (MPI_Fint)(intptr_t)info;
}
MPI_Info MPI_Info_f2c(MPI_Fint info) {
    NOTE_CALLER();
    int64_t number = table_number(&infos, (uint32_t)info);
    return (MPI_Info)(intptr_t)(number == 0 ? info : number);
}
