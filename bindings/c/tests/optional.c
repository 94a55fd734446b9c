/* What programs link which have windows, files or other processes as an option: each call says that it isn't supported
 * (MPI 3.1, 10, 11, 13). The interface for tools has no variables (14.3). */
#include "test.h"

static bool is_unsupported(int code) { return class_of(code) == MPI_ERR_UNSUPPORTED_OPERATION; }

static void check_windows(void) {
    int number = 0, flag = 0;
    void *base = NULL;
    MPI_Comm copy;
    MPI_Win win = (MPI_Win)&number;
    MPI_Request request = (MPI_Request)&number;
    return_errors();
    CHECK(is_unsupported(MPI_Win_create(&number, sizeof number, 1, MPI_INFO_NULL, MPI_COMM_WORLD, &win)));
    CHECK(win == MPI_WIN_NULL);
    CHECK(is_unsupported(MPI_Win_allocate(8, 1, MPI_INFO_NULL, MPI_COMM_WORLD, &base, &win)));
    CHECK(is_unsupported(MPI_Win_fence(MPI_MODE_NOSTORE | MPI_MODE_NOPUT, MPI_WIN_NULL)));
    CHECK(is_unsupported(MPI_Put(&number, 1, MPI_INT, 0, 0, 1, MPI_INT, MPI_WIN_NULL)));
    CHECK(is_unsupported(MPI_Accumulate(&number, 1, MPI_INT, 0, 0, 1, MPI_INT, MPI_REPLACE, MPI_WIN_NULL)));
    CHECK(is_unsupported(MPI_Fetch_and_op(&number, &flag, MPI_INT, 0, 0, MPI_NO_OP, MPI_WIN_NULL)));
    CHECK(is_unsupported(MPI_Rget(&number, 1, MPI_INT, 0, 0, 1, MPI_INT, MPI_WIN_NULL, &request)));
    CHECK(request == MPI_REQUEST_NULL);
    CHECK(is_unsupported(MPI_Win_get_attr(MPI_WIN_NULL, MPI_WIN_BASE, &base, &flag)));
    CHECK(is_unsupported(MPI_Win_free(&win)));
    CHECK(MPI_Win_f2c(MPI_Win_c2f(MPI_WIN_NULL)) == MPI_WIN_NULL);
    /* The handler that is told is that of the communicator. */
    MPI_Comm_dup(MPI_COMM_WORLD, &copy);
    MPI_Comm_set_errhandler(MPI_COMM_WORLD, MPI_ERRORS_ARE_FATAL);
    CHECK(is_unsupported(MPI_Win_create(&number, sizeof number, 1, MPI_INFO_NULL, copy, &win)));
    MPI_Comm_free(&copy);
}

/* Files tell the handler of MPI_FILE_NULL, which returns at first, whatever that of the communicator is. */
static void check_files(void) {
    int number = 0;
    MPI_File file = (MPI_File)&number;
    MPI_Errhandler handler = MPI_ERRHANDLER_NULL;
    MPI_Request request = (MPI_Request)&number;
    CHECK(is_unsupported(MPI_File_open(MPI_COMM_WORLD, "none", MPI_MODE_CREATE | MPI_MODE_RDWR, MPI_INFO_NULL, &file)));
    CHECK(file == MPI_FILE_NULL);
    CHECK(is_unsupported(MPI_File_write_at_all(file, 0, &number, 1, MPI_INT, MPI_STATUS_IGNORE)));
    CHECK(is_unsupported(MPI_File_iread(file, &number, 1, MPI_INT, &request)) && request == MPI_REQUEST_NULL);
    CHECK(is_unsupported(MPI_File_seek(file, 0, MPI_SEEK_END)) && is_unsupported(MPI_File_close(&file)));
    CHECK(is_unsupported(MPI_File_delete("none", MPI_INFO_NULL)));
    CHECK(MPI_File_get_errhandler(MPI_FILE_NULL, &handler) == MPI_SUCCESS && handler == MPI_ERRORS_RETURN);
    CHECK(MPI_File_set_errhandler(MPI_FILE_NULL, MPI_ERRORS_ARE_FATAL) == MPI_SUCCESS);
    CHECK(MPI_File_get_errhandler(MPI_FILE_NULL, &handler) == MPI_SUCCESS && handler == MPI_ERRORS_ARE_FATAL);
    CHECK(MPI_File_set_errhandler(MPI_FILE_NULL, MPI_ERRORS_RETURN) == MPI_SUCCESS);
    CHECK(class_of(MPI_File_set_errhandler((MPI_File)&number, MPI_ERRORS_RETURN)) == MPI_ERR_FILE);
    CHECK(class_of(MPI_File_get_errhandler(MPI_FILE_NULL, NULL)) == MPI_ERR_ARG);
    CHECK(MPI_File_f2c(MPI_File_c2f(MPI_FILE_NULL)) == MPI_FILE_NULL);
}

static void check_processes(void) {
    char port[MPI_MAX_PORT_NAME] = "";
    int codes[1] = {0};
    MPI_Comm comm = MPI_COMM_WORLD, parent = MPI_COMM_WORLD;
    return_errors();
    MPI_Comm_set_errhandler(MPI_COMM_SELF, MPI_ERRORS_RETURN);
    CHECK(MPI_Comm_get_parent(&parent) == MPI_SUCCESS && parent == MPI_COMM_NULL);
    CHECK(is_unsupported(MPI_Comm_spawn("none", MPI_ARGV_NULL, 1, MPI_INFO_NULL, 0, MPI_COMM_SELF, &comm, codes)));
    CHECK(comm == MPI_COMM_NULL);
    CHECK(is_unsupported(MPI_Open_port(MPI_INFO_NULL, port)));
    CHECK(is_unsupported(MPI_Publish_name("none", MPI_INFO_NULL, port)));
    CHECK(is_unsupported(MPI_Comm_connect(port, MPI_INFO_NULL, 0, MPI_COMM_SELF, &comm)));
    CHECK(is_unsupported(MPI_Comm_join(0, &comm)));
    MPI_Comm_set_errhandler(MPI_COMM_WORLD, MPI_ERRORS_ARE_FATAL);
}

/* Of a tool: before MPI begins and behind its end, too. */
static void check_tools(void) {
    int number = -1, level = -1;
    MPI_T_cvar_handle variable = MPI_T_CVAR_HANDLE_NULL;
    MPI_T_pvar_handle counter = MPI_T_PVAR_HANDLE_NULL;
    MPI_T_pvar_session session = MPI_T_PVAR_SESSION_NULL, stale;
    CHECK(MPI_T_cvar_get_num(&number) == MPI_T_ERR_NOT_INITIALIZED && number == -1);
    CHECK(MPI_T_finalize() == MPI_T_ERR_NOT_INITIALIZED);
    CHECK(MPI_T_init_thread(MPI_THREAD_SINGLE, &level) == MPI_SUCCESS && level >= MPI_THREAD_SINGLE);
    CHECK(MPI_T_init_thread(MPI_THREAD_SINGLE, &level) == MPI_SUCCESS && MPI_T_finalize() == MPI_SUCCESS);
    CHECK(MPI_T_cvar_get_num(&number) == MPI_SUCCESS && number == 0);
    CHECK(MPI_T_pvar_get_num(&number) == MPI_SUCCESS && number == 0);
    CHECK(MPI_T_category_get_num(&number) == MPI_SUCCESS && number == 0);
    CHECK(MPI_T_category_changed(&number) == MPI_SUCCESS && MPI_T_cvar_get_num(NULL) == MPI_T_ERR_INVALID);
    CHECK(MPI_T_cvar_get_index("none", &number) == MPI_T_ERR_INVALID_NAME);
    CHECK(MPI_T_category_get_cvars(0, 1, &number) == MPI_T_ERR_INVALID_INDEX);
    CHECK(MPI_T_cvar_handle_alloc(0, NULL, &variable, &number) == MPI_T_ERR_INVALID_INDEX);
    CHECK(MPI_T_cvar_read(variable, &number) == MPI_T_ERR_INVALID_HANDLE);
    CHECK(MPI_T_enum_get_item(MPI_T_ENUM_NULL, 0, &number, NULL, NULL) == MPI_T_ERR_INVALID_HANDLE);
    CHECK(MPI_T_pvar_start(session, MPI_T_PVAR_ALL_HANDLES) == MPI_T_ERR_INVALID_SESSION);
    CHECK(MPI_T_pvar_session_create(&session) == MPI_SUCCESS && session != MPI_T_PVAR_SESSION_NULL);
    CHECK(MPI_T_pvar_handle_alloc(session, 0, NULL, &counter, &number) == MPI_T_ERR_INVALID_INDEX);
    CHECK(MPI_T_pvar_start(session, MPI_T_PVAR_ALL_HANDLES) == MPI_SUCCESS);
    CHECK(MPI_T_pvar_start(session, counter) == MPI_T_ERR_INVALID_HANDLE);
    stale = session;
    CHECK(MPI_T_pvar_session_free(&session) == MPI_SUCCESS && session == MPI_T_PVAR_SESSION_NULL);
    CHECK(MPI_T_pvar_session_free(&stale) == MPI_T_ERR_INVALID_SESSION);
    CHECK(MPI_T_pvar_session_create(&session) == MPI_SUCCESS);
    CHECK(MPI_T_finalize() == MPI_SUCCESS && MPI_T_pvar_get_num(&number) == MPI_T_ERR_NOT_INITIALIZED);
}

int main(int argc, char **argv) {
    char text[MPI_MAX_ERROR_STRING];
    int length = 0;
    check_tools();
    test_begin(&argc, &argv);
    check_windows();
    check_files();
    check_processes();
    check_tools();
    CHECK(MPI_Error_string(MPI_T_ERR_INVALID_INDEX, text, &length) == MPI_SUCCESS && length > 0);
    CHECK(MPI_T_ERR_INVALID_INDEX <= MPI_ERR_LASTCODE);
    return test_end();
}
