/* Memory that is refused to calls of types, at each place where one asks for it: the call tells MPI_ERR_NO_MEM, answers
 * nothing, and keeps nothing. The functions that give memory are this program's, over those of glibc. */
#include "test.h"

static long passes = -1; /* so many more requests for memory are granted, then one isn't; -1: all are */
static long held;        /* how many pieces of memory the program has */

#ifndef __SANITIZE_ADDRESS__ /* which has such functions of its own */
void *__libc_malloc(size_t size);
void *__libc_calloc(size_t count, size_t size);
void *__libc_realloc(void *old, size_t size);
void __libc_free(void *old);

static void *granted(void *piece) {
    held += piece != NULL;
    return piece;
}
static bool is_refused(void) { return passes >= 0 && passes-- == 0; }
void *malloc(size_t size) { return is_refused() ? NULL : granted(__libc_malloc(size)); }
void *calloc(size_t count, size_t size) { return is_refused() ? NULL : granted(__libc_calloc(count, size)); }
void *realloc(void *old, size_t size) {
    if (is_refused()) return NULL;
    held -= old != NULL;
    return granted(__libc_realloc(old, size));
}
void free(void *old) {
    held -= old != NULL;
    __libc_free(old);
}
#endif

static MPI_Datatype item;

/* Each makes a type. */
static int a_contiguous(MPI_Datatype *made) { return MPI_Type_contiguous(3, item, made); }
static int a_vector(MPI_Datatype *made) { return MPI_Type_vector(3, 2, 5, item, made); }
static int a_hvector(MPI_Datatype *made) { return MPI_Type_create_hvector(3, 2, 500, item, made); }
static int a_resized(MPI_Datatype *made) { return MPI_Type_create_resized(item, 0, 100, made); }
static int a_copy(MPI_Datatype *made) { return MPI_Type_dup(item, made); }
static int an_indexed(MPI_Datatype *made) {
    return MPI_Type_indexed(4, (int[]){1, 2, 0, 1}, (int[]){0, 5, 9, 11}, item, made);
}
static int blocks(MPI_Datatype *made) {
    return MPI_Type_create_hindexed_block(3, 2, (MPI_Aint[]){0, 100, 700}, item, made);
}
static int a_struct(MPI_Datatype *made) {
    return MPI_Type_create_struct(3, (int[]){1, 2, 2}, (MPI_Aint[]){0, 80, 99}, (MPI_Datatype[]){item, MPI_INT, item},
                                  made);
}
static int a_part(MPI_Datatype *made) {
    return MPI_Type_create_subarray(3, (int[]){4, 5, 6}, (int[]){2, 3, 4}, (int[]){1, 1, 1}, MPI_ORDER_C, item, made);
}
static int a_share(MPI_Datatype *made) {
    const int distribs[] = {MPI_DISTRIBUTE_CYCLIC, MPI_DISTRIBUTE_BLOCK}, dargs[] = {2, MPI_DISTRIBUTE_DFLT_DARG};
    return MPI_Type_create_darray(4, 1, 2, (int[]){7, 9}, distribs, dargs, (int[]){2, 2}, MPI_ORDER_C, item, made);
}

/* Refuses each request of a call, one after the other, until it asks for no more. */
static void check_maker(int (*make)(MPI_Datatype *)) {
    for (long at = 0;; at++) {
        MPI_Datatype made = MPI_2INT;
        long before = held;
        passes = at;
        int class = class_of(make(&made));
        passes = -1;
        if (class == MPI_SUCCESS) {
            MPI_Type_free(&made);
            CHECK(held == before && at > 0);
            return;
        }
        CHECK(class == MPI_ERR_NO_MEM && made == MPI_2INT && held == before);
    }
}

/* The same of contents, which give handles. */
static void check_contents(void) {
    MPI_Datatype made, types[3];
    a_struct(&made);
    for (long at = 0;; at++) {
        int integers[4] = {9, 9, 9, 9};
        MPI_Aint addresses[3];
        long before = held;
        passes = at;
        int class = class_of(MPI_Type_get_contents(made, 4, 3, 3, integers, addresses, types));
        passes = -1;
        if (class == MPI_SUCCESS) break;
        CHECK(class == MPI_ERR_NO_MEM && integers[0] == 9 && held == before);
    }
    MPI_Type_free(&types[0]);
    MPI_Type_free(&types[2]);
    MPI_Type_free(&made);
}

/* And of packing, where nothing is packed. */
static void check_packing(void) {
    static char data[400], row[400];
    MPI_Aint position = 0;
    long before = held;
    passes = 0;
    CHECK(class_of(MPI_Pack_external("external32", data, 3, item, row, sizeof row, &position)) == MPI_ERR_NO_MEM);
    passes = 0;
    CHECK(class_of(MPI_Unpack_external("external32", row, sizeof row, &position, data, 3, item)) == MPI_ERR_NO_MEM);
    passes = -1;
    CHECK(position == 0 && held == before);
}

int main(int argc, char **argv) {
    int (*const makers[])(MPI_Datatype *) = {a_contiguous, a_vector, a_hvector, a_resized, a_copy,
                                             an_indexed,   blocks,   a_struct,  a_part,    a_share};
    test_begin(&argc, &argv);
    return_errors();
    MPI_Type_create_struct(3, (int[]){1, 1, 1}, (MPI_Aint[]){0, 8, 20}, (MPI_Datatype[]){MPI_INT, MPI_DOUBLE, MPI_CHAR},
                           &item);
    MPI_Type_commit(&item);
    /* Under valgrind the functions are valgrind's. */
    if (held != 0) {
        for (int i = 0; i < 10; i++) check_maker(makers[i]);
        check_contents();
        check_packing();
    }
    MPI_Type_free(&item);
    return test_end();
}
