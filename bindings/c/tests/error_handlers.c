/* Error handlers of a program's own (MPI 3.1, 8.3), and error classes and codes that it adds (8.5). */
#include "test.h"

static int calls, last_code;
static MPI_Comm last_comm;

static void note(MPI_Comm *comm, int *code, ...) {
    calls++;
    last_code = *code;
    last_comm = *comm;
}

static void check_handlers(void) {
    MPI_Errhandler handler, kept, again;
    MPI_Comm comm, copy;
    calls = 0;
    MPI_Comm_create_errhandler(note, &handler);
    MPI_Comm_dup(MPI_COMM_WORLD, &comm);
    MPI_Comm_set_errhandler(comm, handler);
    kept = handler;
    MPI_Errhandler_free(&handler);
    CHECK(handler == MPI_ERRHANDLER_NULL);
    CHECK(class_of(MPI_Send(NULL, 0, MPI_INT, 1000, 0, comm)) == MPI_ERR_RANK);
    CHECK(calls == 1 && last_code == MPI_ERR_RANK && last_comm == comm);
    /* A copy and a part have their parent's. */
    MPI_Comm_dup(comm, &copy);
    MPI_Comm_free(&comm);
    CHECK(MPI_Comm_split(copy, -5, 0, &comm) != MPI_SUCCESS && calls == 2 && last_comm == copy);
    MPI_Comm_get_errhandler(copy, &again);
    CHECK(again == kept);
    CHECK(MPI_Comm_call_errhandler(copy, MPI_ERR_TAG) == MPI_SUCCESS && calls == 3 && last_code == MPI_ERR_TAG);
    MPI_Comm_set_errhandler(copy, MPI_ERRORS_RETURN);
    CHECK(MPI_Comm_call_errhandler(copy, MPI_ERR_TAG) == MPI_SUCCESS && calls == 3);
    MPI_Comm_set_errhandler(copy, again);
    CHECK(MPI_Errhandler_f2c(MPI_Errhandler_c2f(again)) == again);
    MPI_Errhandler_free(&again);
    MPI_Comm_free(&copy);
    return_errors();
    CHECK(MPI_Comm_set_errhandler(MPI_COMM_WORLD, kept) != MPI_SUCCESS);
    CHECK(MPI_Comm_create_errhandler(NULL, &handler) != MPI_SUCCESS);
}

/* An error of an operation is told to the handler of its communicator; of no communicator, to that of MPI_COMM_WORLD.
 */
static void check_places(void) {
    MPI_Errhandler handler, before;
    int size = 0;
    MPI_Comm_get_errhandler(MPI_COMM_WORLD, &before);
    MPI_Errhandler_create(note, &handler);
    MPI_Errhandler_set(MPI_COMM_WORLD, handler);
    MPI_Errhandler_free(&handler);
    calls = 0;
    CHECK(MPI_Comm_size(MPI_COMM_NULL, &size) != MPI_SUCCESS && calls == 1 && last_comm == MPI_COMM_WORLD);
    MPI_Errhandler_set(MPI_COMM_WORLD, before);
    MPI_Errhandler_free(&before);
}

static int last_used(void) {
    int *value = NULL, flag = 0;
    MPI_Comm_get_attr(MPI_COMM_WORLD, MPI_LASTUSEDCODE, &value, &flag);
    return flag ? *value : -1;
}

static void check_codes(void) {
    int class, code, other, found = -1, length = -1;
    char text[MPI_MAX_ERROR_STRING];
    CHECK(last_used() == MPI_ERR_LASTCODE);
    MPI_Add_error_class(&class);
    CHECK(class > MPI_ERR_LASTCODE && last_used() == class);
    MPI_Add_error_code(class, &code);
    MPI_Add_error_code(MPI_ERR_TAG, &other);
    CHECK(code > class && other > code && last_used() == other);
    MPI_Error_class(code, &found);
    CHECK(found == class);
    MPI_Error_class(other, &found);
    CHECK(found == MPI_ERR_TAG);
    MPI_Error_string(code, text, &length);
    CHECK(length == 0 && text[0] == '\0');
    MPI_Add_error_string(code, "a code of my own");
    MPI_Add_error_string(class, "a class of my own");
    MPI_Error_string(code, text, &length);
    CHECK(length == 16 && strcmp(text, "a code of my own") == 0);
    MPI_Error_string(class, text, &length);
    CHECK(strcmp(text, "a class of my own") == 0);
    return_errors();
    CHECK(MPI_Add_error_string(MPI_ERR_TAG, "other") != MPI_SUCCESS);
    CHECK(MPI_Add_error_code(code, &other) != MPI_SUCCESS);
    CHECK(MPI_Error_class(other + 1, &found) != MPI_SUCCESS);
    calls = 0;
    MPI_Errhandler handler;
    MPI_Comm_create_errhandler(note, &handler);
    MPI_Comm_set_errhandler(MPI_COMM_SELF, handler);
    MPI_Comm_call_errhandler(MPI_COMM_SELF, code);
    CHECK(calls == 1 && last_code == code && last_comm == MPI_COMM_SELF);
    MPI_Errhandler_free(&handler);
}

int main(int argc, char **argv) {
    test_begin(&argc, &argv);
    check_places();
    check_handlers();
    check_codes();
    return test_end();
}
