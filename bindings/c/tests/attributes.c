/* Attributes (MPI 3.1, 6.7): when which function is called with what, what fails with them, the predefined ones. */
#include "test.h"

static int copies, deletes, last_deleted, is_failing;

static int copy(MPI_Comm comm, int key, void *extra, void *in, void *out, int *flag) {
    (void)comm, (void)key;
    CHECK(*(int *)extra == 77);
    copies++;
    *(void **)out = (char *)in + 1;
    *flag = 1;
    return is_failing ? MPI_ERR_OTHER : MPI_SUCCESS;
}

static int delete (MPI_Comm comm, int key, void *value, void *extra) {
    (void)comm, (void)key;
    CHECK(*(int *)extra == 77);
    deletes++;
    last_deleted = (int)(size_t)value;
    return is_failing ? MPI_ERR_OTHER : MPI_SUCCESS;
}

static int value_of(MPI_Comm comm, int key) {
    void *value = NULL;
    int flag = -1;
    MPI_Comm_get_attr(comm, key, &value, &flag);
    return flag ? (int)(size_t)value : -flag - 1;
}

static int extra = 77;

static void check_life(void) {
    int key = MPI_KEYVAL_INVALID, still;
    MPI_Comm comm, other;
    MPI_Comm_create_keyval(copy, delete, &key, &extra);
    CHECK(key != MPI_KEYVAL_INVALID);
    MPI_Comm_dup(MPI_COMM_WORLD, &comm);
    CHECK(value_of(comm, key) == -1 && copies == 0);
    MPI_Comm_set_attr(comm, key, (void *)5);
    MPI_Comm_set_attr(comm, key, (void *)8);
    CHECK(deletes == 1 && last_deleted == 5 && value_of(comm, key) == 8);
    MPI_Comm_dup(comm, &other);
    CHECK(copies == 1 && value_of(other, key) == 9 && value_of(comm, key) == 8);
    MPI_Comm_delete_attr(comm, key);
    CHECK(deletes == 2 && last_deleted == 8 && value_of(comm, key) == -1);
    MPI_Comm_free(&comm);
    CHECK(deletes == 2);
    /* A key that is freed stays with its values. */
    still = key;
    MPI_Comm_free_keyval(&key);
    CHECK(key == MPI_KEYVAL_INVALID);
    return_errors();
    MPI_Comm_set_errhandler(other, MPI_ERRORS_RETURN);
    CHECK(class_of(MPI_Comm_set_attr(other, still, NULL)) == MPI_ERR_KEYVAL);
    CHECK(value_of(other, still) == 9);
    MPI_Comm_dup(other, &comm);
    CHECK(copies == 2);
    MPI_Comm_free(&comm);
    CHECK(deletes == 3 && last_deleted == 10);
    MPI_Comm_split(other, 0, 0, &comm);
    CHECK(copies == 2);
    MPI_Comm_free(&comm);
    MPI_Comm_free(&other);
    CHECK(deletes == 4 && last_deleted == 9);
    CHECK(class_of(MPI_Comm_free_keyval(&still)) == MPI_ERR_KEYVAL);
}

/* A function that fails makes the call fail. */
static void check_failures(void) {
    int key;
    MPI_Comm comm, other = MPI_COMM_SELF;
    copies = deletes = 0;
    MPI_Comm_create_keyval(copy, delete, &key, &extra);
    MPI_Comm_dup(MPI_COMM_WORLD, &comm);
    MPI_Comm_set_attr(comm, key, (void *)1);
    MPI_Comm_set_errhandler(comm, MPI_ERRORS_RETURN);
    is_failing = 1;
    CHECK(MPI_Comm_dup(comm, &other) != MPI_SUCCESS && other == MPI_COMM_NULL && copies == 1);
    CHECK(MPI_Comm_delete_attr(comm, key) != MPI_SUCCESS && value_of(comm, key) == 1);
    CHECK(MPI_Comm_set_attr(comm, key, (void *)2) != MPI_SUCCESS && value_of(comm, key) == 1);
    CHECK(MPI_Comm_free(&comm) != MPI_SUCCESS && comm != MPI_COMM_NULL && deletes == 3);
    is_failing = 0;
    MPI_Comm_free(&comm);
    CHECK(comm == MPI_COMM_NULL && deletes == 4);
    MPI_Comm_free_keyval(&key);
}

/* Functions of the library; values are deleted in the reverse order (8.7.1 says so of MPI_COMM_SELF). */
static void check_library_functions(void) {
    int keep, lose, first, second;
    MPI_Comm comm, other;
    MPI_Comm_create_keyval(MPI_COMM_DUP_FN, MPI_COMM_NULL_DELETE_FN, &keep, NULL);
    MPI_Keyval_create(MPI_NULL_COPY_FN, MPI_NULL_DELETE_FN, &lose, NULL);
    MPI_Comm_create_keyval(MPI_COMM_NULL_COPY_FN, delete, &first, &extra);
    MPI_Comm_create_keyval(MPI_COMM_NULL_COPY_FN, delete, &second, &extra);
    MPI_Comm_dup(MPI_COMM_SELF, &comm);
    MPI_Attr_put(comm, keep, (void *)3);
    MPI_Attr_put(comm, lose, (void *)4);
    MPI_Comm_dup(comm, &other);
    CHECK(value_of(other, keep) == 3 && value_of(other, lose) == -1);
    MPI_Attr_delete(other, keep);
    CHECK(value_of(other, keep) == -1);
    MPI_Comm_set_attr(other, first, (void *)1);
    MPI_Comm_set_attr(other, second, (void *)2);
    MPI_Comm_free(&other);
    CHECK(last_deleted == 1);
    MPI_Comm_free(&comm);
    MPI_Comm_free_keyval(&keep);
    MPI_Keyval_free(&lose);
    MPI_Comm_free_keyval(&first);
    MPI_Comm_free_keyval(&second);
}

static void check_predefined(void) {
    const int keys[] = {MPI_TAG_UB, MPI_HOST, MPI_IO, MPI_WTIME_IS_GLOBAL, MPI_UNIVERSE_SIZE, MPI_LASTUSEDCODE};
    int *value = NULL, flag = 0;
    for (int at = 0; at < 6; at++) {
        flag = 0;
        MPI_Comm_get_attr(MPI_COMM_WORLD, keys[at], &value, &flag);
        CHECK(flag && value != NULL);
        if (keys[at] == MPI_TAG_UB) CHECK(*value >= 32767);
        if (keys[at] == MPI_HOST) CHECK(*value == MPI_PROC_NULL || (*value >= 0 && *value < test_size));
        if (keys[at] == MPI_UNIVERSE_SIZE) CHECK(*value >= test_size);
        if (keys[at] == MPI_LASTUSEDCODE) CHECK(*value >= MPI_ERR_LASTCODE);
    }
    MPI_Attr_get(MPI_COMM_WORLD, MPI_APPNUM, &value, &flag);
    CHECK(!flag || *value >= 0);
    return_errors();
    CHECK(MPI_Comm_set_attr(MPI_COMM_WORLD, MPI_TAG_UB, NULL) != MPI_SUCCESS);
    CHECK(class_of(MPI_Comm_delete_attr(MPI_COMM_WORLD, MPI_KEYVAL_INVALID)) == MPI_ERR_KEYVAL);
}

/* Values of types. */
static int type_deletes;
static int delete_of_type(MPI_Datatype type, int key, void *value, void *extra_state) {
    (void)type, (void)key, (void)extra_state;
    type_deletes += (int)(size_t)value;
    return MPI_SUCCESS;
}

static void check_types(void) {
    int key, flag = -1;
    void *value = NULL;
    MPI_Datatype type, copy;
    MPI_Type_create_keyval(MPI_TYPE_DUP_FN, delete_of_type, &key, NULL);
    MPI_Type_contiguous(2, MPI_INT, &type);
    MPI_Type_get_attr(type, key, &value, &flag);
    CHECK(flag == 0);
    MPI_Type_set_attr(type, key, (void *)10);
    MPI_Type_get_attr(type, key, &value, &flag);
    CHECK(flag == 1 && value == (void *)10);
    MPI_Type_set_attr(type, key, (void *)20);
    CHECK(type_deletes == 10);
    MPI_Type_dup(type, &copy);
    value = NULL;
    MPI_Type_get_attr(copy, key, &value, &flag);
    CHECK(flag == 1 && value == (void *)20);
    MPI_Type_free(&copy);
    CHECK(type_deletes == 30);
    MPI_Type_set_attr(MPI_INT, key, (void *)300);
    MPI_Type_free(&type);
    CHECK(type_deletes == 50);
    MPI_Type_delete_attr(MPI_INT, key);
    CHECK(type_deletes == 350);
    return_errors();
    CHECK(class_of(MPI_Comm_set_attr(MPI_COMM_WORLD, key, NULL)) == MPI_ERR_KEYVAL);
    MPI_Type_set_attr(MPI_DOUBLE, key, (void *)1000);
    MPI_Type_free_keyval(&key);
    CHECK(key == MPI_KEYVAL_INVALID);
}

/* Before all else MPI_Finalize deletes what is kept with MPI_COMM_SELF: MPI goes on then (8.7.1). */
static int end_order;
static int at_end(MPI_Comm comm, int key, void *value, void *state) {
    int flag = 0, size = 0;
    (void)key, (void)state;
    MPI_Finalized(&flag);
    MPI_Comm_size(MPI_COMM_WORLD, &size);
    if (flag || size != test_size || comm != MPI_COMM_SELF || (int)(size_t)value != 2 - end_order++) printf("wrong\n");
    if (test_rank == 0 && end_order == 2) printf("No Errors\n");
    return MPI_SUCCESS;
}

int main(int argc, char **argv) {
    int first, second, all = 0;
    test_begin(&argc, &argv);
    check_life();
    check_failures();
    check_library_functions();
    check_predefined();
    check_types();
    MPI_Reduce(&test_errors, &all, 1, MPI_INT, MPI_SUM, 0, MPI_COMM_WORLD);
    if (test_rank == 0 && all != 0) printf("%d errors\n", all);
    MPI_Comm_create_keyval(MPI_NULL_COPY_FN, at_end, &first, NULL);
    MPI_Comm_create_keyval(MPI_NULL_COPY_FN, at_end, &second, NULL);
    MPI_Comm_set_attr(MPI_COMM_SELF, first, (void *)1);
    MPI_Comm_set_attr(MPI_COMM_SELF, second, (void *)2);
    MPI_Finalize();
    return test_errors != 0;
}
