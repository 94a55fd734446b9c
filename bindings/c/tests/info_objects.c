/* Info objects (MPI 3.1, 9): keys and values, copies, lengths, what is refused. */
#include "test.h"

static void check_pairs(void) {
    MPI_Info info;
    char value[MPI_MAX_INFO_VAL], key[MPI_MAX_INFO_KEY + 1];
    int flag = -1, count = -1, length = -1;
    MPI_Info_create(&info);
    MPI_Info_get(info, "none", 10, value, &flag);
    CHECK(flag == 0);
    MPI_Info_set(info, "one", "first");
    MPI_Info_set(info, "two", "second");
    MPI_Info_set(info, "one", "third value");
    MPI_Info_get_nkeys(info, &count);
    CHECK(count == 2);
    MPI_Info_get_nthkey(info, 1, key);
    CHECK(strcmp(key, "two") == 0);
    MPI_Info_get_valuelen(info, "one", &length, &flag);
    CHECK(flag == 1 && length == 11);
    MPI_Info_get(info, "one", 11, value, &flag);
    CHECK(flag == 1 && strcmp(value, "third value") == 0);
    MPI_Info_get(info, "one", 5, value, &flag);
    CHECK(flag == 1 && strcmp(value, "third") == 0);
    MPI_Info_free(&info);
    CHECK(info == MPI_INFO_NULL);
}

static void check_copies(void) {
    MPI_Info info, copy;
    char value[MPI_MAX_INFO_VAL], key[MPI_MAX_INFO_KEY + 1];
    int flag = -1, count = -1;
    MPI_Info_create(&info);
    MPI_Info_set(info, "one", "first");
    MPI_Info_set(info, "two", "second");
    MPI_Info_dup(info, &copy);
    MPI_Info_delete(info, "one");
    MPI_Info_get_nkeys(info, &count);
    MPI_Info_get_nthkey(info, 0, key);
    CHECK(count == 1 && strcmp(key, "two") == 0);
    MPI_Info_get(info, "two", 10, value, &flag);
    CHECK(flag == 1 && strcmp(value, "second") == 0);
    MPI_Info_get_nkeys(copy, &count);
    CHECK(count == 2);
    for (int at = 0; at < 20; at++) {
        snprintf(key, sizeof key, "key %d", at);
        snprintf(value, sizeof value, "value %d", at);
        MPI_Info_set(copy, key, value);
    }
    MPI_Info_get_nkeys(copy, &count);
    MPI_Info_get(copy, "key 17", 100, value, &flag);
    CHECK(count == 22 && flag == 1 && strcmp(value, "value 17") == 0);
    CHECK(MPI_Info_f2c(MPI_Info_c2f(copy)) == copy);
    MPI_Info_free(&copy);
    MPI_Info_free(&info);
    CHECK(copy == MPI_INFO_NULL && info == MPI_INFO_NULL);
}

/* Of MPI 4.0. */
static void check_strings(char **argv) {
    MPI_Info info;
    char value[64] = "as it was";
    int length = 0, flag = 0;
    MPI_Info_create(&info);
    MPI_Info_set(info, "name", "a value");
    MPI_Info_get_string(info, "name", &length, NULL, &flag);
    CHECK(flag == 1 && length == 8);
    length = 4;
    MPI_Info_get_string(info, "name", &length, value, &flag);
    CHECK(strcmp(value, "a v") == 0 && length == 8);
    MPI_Info_get_string(info, "name", &length, value, &flag);
    CHECK(strcmp(value, "a value") == 0 && length == 8);
    MPI_Info_get_string(info, "other", &length, value, &flag);
    CHECK(flag == 0 && length == 8);
    MPI_Info_free(&info);
    MPI_Info_create_env(1, argv, &info);
    MPI_Info_get(info, "command", 63, value, &flag);
    CHECK(flag == 1 && strncmp(value, argv[0], 63) == 0);
    MPI_Info_free(&info);
    MPI_Info_get(MPI_INFO_ENV, "maxprocs", 63, value, &flag);
    CHECK(flag == 1 && atoi(value) == test_size);
}

static void check_refusals(void) {
    MPI_Info info, gone;
    char key[MPI_MAX_INFO_KEY + 2], value[MPI_MAX_INFO_VAL + 2];
    int flag = 0;
    MPI_Info_create(&info);
    gone = info;
    memset(key, 'k', sizeof key);
    memset(value, 'v', sizeof value);
    key[sizeof key - 1] = value[sizeof value - 1] = '\0';
    return_errors();
    CHECK(class_of(MPI_Info_set(info, key, "")) == MPI_ERR_INFO_KEY);
    CHECK(class_of(MPI_Info_set(info, "key", value)) == MPI_ERR_INFO_VALUE);
    CHECK(class_of(MPI_Info_set(info, "", "")) == MPI_ERR_INFO_KEY);
    CHECK(class_of(MPI_Info_delete(info, "key")) == MPI_ERR_INFO_NOKEY);
    CHECK(class_of(MPI_Info_get_nthkey(info, 0, key)) == MPI_ERR_ARG);
    CHECK(class_of(MPI_Info_set(MPI_INFO_NULL, "key", "")) == MPI_ERR_INFO);
    CHECK(class_of(MPI_Info_set(MPI_INFO_ENV, "key", "")) == MPI_ERR_INFO);
    MPI_Info_free(&info);
    CHECK(class_of(MPI_Info_get(gone, "key", 1, value, &flag)) == MPI_ERR_INFO);
    CHECK(class_of(MPI_Info_free(&info)) == MPI_ERR_INFO);
}

/* Hints of communicators: none is used. */
static void check_hints(void) {
    MPI_Info info, used;
    MPI_Comm copy;
    int count = -1;
    MPI_Info_create(&info);
    MPI_Info_set(info, "hint", "1");
    MPI_Comm_dup_with_info(MPI_COMM_WORLD, info, &copy);
    MPI_Comm_set_info(copy, info);
    MPI_Comm_get_info(copy, &used);
    MPI_Info_get_nkeys(used, &count);
    CHECK(count == 0);
    MPI_Info_free(&used);
    MPI_Info_free(&info);
    MPI_Comm_free(&copy);
}

int main(int argc, char **argv) {
    MPI_Info early;
    MPI_Info_create(&early);
    test_begin(&argc, &argv);
    CHECK(MPI_Info_set(early, "key", "value") == MPI_SUCCESS);
    MPI_Info_free(&early);
    check_pairs();
    check_copies();
    check_strings(argv);
    check_refusals();
    check_hints();
    return test_end();
}
