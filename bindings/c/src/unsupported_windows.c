/* Windows (MPI 3.1, 11, 6.7): windows aren't supported, and each call says so.
 * Made by tools/unsupported_calls of unsupported.txt. */
/* clang-format off */
#include "unsupported.h"

#pragma GCC diagnostic ignored "-Wunused-parameter"

int MPI_Accumulate(const void *origin_addr, int origin_count, MPI_Datatype origin_datatype, int target_rank,
    MPI_Aint target_disp, int target_count, MPI_Datatype target_datatype, MPI_Op op, MPI_Win win) {
    NOTE_CALLER();
    static const char call[] = "MPI_Accumulate";
    check_running(call);
    return unsupported(MPI_COMM_WORLD, call, "windows aren't supported");
}

int MPI_Compare_and_swap(const void *origin_addr, const void *compare_addr, void *result_addr, MPI_Datatype datatype,
    int target_rank, MPI_Aint target_disp, MPI_Win win) {
    NOTE_CALLER();
    static const char call[] = "MPI_Compare_and_swap";
    check_running(call);
    return unsupported(MPI_COMM_WORLD, call, "windows aren't supported");
}

int MPI_Fetch_and_op(const void *origin_addr, void *result_addr, MPI_Datatype datatype, int target_rank,
    MPI_Aint target_disp, MPI_Op op, MPI_Win win) {
    NOTE_CALLER();
    static const char call[] = "MPI_Fetch_and_op";
    check_running(call);
    return unsupported(MPI_COMM_WORLD, call, "windows aren't supported");
}

int MPI_Get(void *origin_addr, int origin_count, MPI_Datatype origin_datatype, int target_rank, MPI_Aint target_disp,
    int target_count, MPI_Datatype target_datatype, MPI_Win win) {
    NOTE_CALLER();
    static const char call[] = "MPI_Get";
    check_running(call);
    return unsupported(MPI_COMM_WORLD, call, "windows aren't supported");
}

int MPI_Get_accumulate(const void *origin_addr, int origin_count, MPI_Datatype origin_datatype, void *result_addr,
    int result_count, MPI_Datatype result_datatype, int target_rank, MPI_Aint target_disp, int target_count,
    MPI_Datatype target_datatype, MPI_Op op, MPI_Win win) {
    NOTE_CALLER();
    static const char call[] = "MPI_Get_accumulate";
    check_running(call);
    return unsupported(MPI_COMM_WORLD, call, "windows aren't supported");
}

int MPI_Put(const void *origin_addr, int origin_count, MPI_Datatype origin_datatype, int target_rank,
    MPI_Aint target_disp, int target_count, MPI_Datatype target_datatype, MPI_Win win) {
    NOTE_CALLER();
    static const char call[] = "MPI_Put";
    check_running(call);
    return unsupported(MPI_COMM_WORLD, call, "windows aren't supported");
}

int MPI_Raccumulate(const void *origin_addr, int origin_count, MPI_Datatype origin_datatype, int target_rank,
    MPI_Aint target_disp, int target_count, MPI_Datatype target_datatype, MPI_Op op, MPI_Win win,
    MPI_Request *request) {
    NOTE_CALLER();
    static const char call[] = "MPI_Raccumulate";
    check_running(call);
    if (request != NULL) *request = MPI_REQUEST_NULL;
    return unsupported(MPI_COMM_WORLD, call, "windows aren't supported");
}

int MPI_Rget(void *origin_addr, int origin_count, MPI_Datatype origin_datatype, int target_rank, MPI_Aint target_disp,
    int target_count, MPI_Datatype target_datatype, MPI_Win win, MPI_Request *request) {
    NOTE_CALLER();
    static const char call[] = "MPI_Rget";
    check_running(call);
    if (request != NULL) *request = MPI_REQUEST_NULL;
    return unsupported(MPI_COMM_WORLD, call, "windows aren't supported");
}

int MPI_Rget_accumulate(const void *origin_addr, int origin_count, MPI_Datatype origin_datatype, void *result_addr,
    int result_count, MPI_Datatype result_datatype, int target_rank, MPI_Aint target_disp, int target_count,
    MPI_Datatype target_datatype, MPI_Op op, MPI_Win win, MPI_Request *request) {
    NOTE_CALLER();
    static const char call[] = "MPI_Rget_accumulate";
    check_running(call);
    if (request != NULL) *request = MPI_REQUEST_NULL;
    return unsupported(MPI_COMM_WORLD, call, "windows aren't supported");
}

int MPI_Rput(const void *origin_addr, int origin_count, MPI_Datatype origin_datatype, int target_rank,
    MPI_Aint target_disp, int target_count, MPI_Datatype target_datatype, MPI_Win win, MPI_Request *request) {
    NOTE_CALLER();
    static const char call[] = "MPI_Rput";
    check_running(call);
    if (request != NULL) *request = MPI_REQUEST_NULL;
    return unsupported(MPI_COMM_WORLD, call, "windows aren't supported");
}

int MPI_Win_allocate(MPI_Aint size, int disp_unit, MPI_Info info, MPI_Comm comm, void *baseptr, MPI_Win *win) {
    NOTE_CALLER();
    static const char call[] = "MPI_Win_allocate";
    check_running(call);
    if (win != NULL) *win = MPI_WIN_NULL;
    return unsupported(comm, call, "windows aren't supported");
}

int MPI_Win_allocate_shared(MPI_Aint size, int disp_unit, MPI_Info info, MPI_Comm comm, void *baseptr, MPI_Win *win) {
    NOTE_CALLER();
    static const char call[] = "MPI_Win_allocate_shared";
    check_running(call);
    if (win != NULL) *win = MPI_WIN_NULL;
    return unsupported(comm, call, "windows aren't supported");
}

int MPI_Win_attach(MPI_Win win, void *base, MPI_Aint size) {
    NOTE_CALLER();
    static const char call[] = "MPI_Win_attach";
    check_running(call);
    return unsupported(MPI_COMM_WORLD, call, "windows aren't supported");
}

int MPI_Win_call_errhandler(MPI_Win win, int errorcode) {
    NOTE_CALLER();
    static const char call[] = "MPI_Win_call_errhandler";
    check_running(call);
    return unsupported(MPI_COMM_WORLD, call, "windows aren't supported");
}

int MPI_Win_complete(MPI_Win win) {
    NOTE_CALLER();
    static const char call[] = "MPI_Win_complete";
    check_running(call);
    return unsupported(MPI_COMM_WORLD, call, "windows aren't supported");
}

int MPI_Win_create(void *base, MPI_Aint size, int disp_unit, MPI_Info info, MPI_Comm comm, MPI_Win *win) {
    NOTE_CALLER();
    static const char call[] = "MPI_Win_create";
    check_running(call);
    if (win != NULL) *win = MPI_WIN_NULL;
    return unsupported(comm, call, "windows aren't supported");
}

int MPI_Win_create_dynamic(MPI_Info info, MPI_Comm comm, MPI_Win *win) {
    NOTE_CALLER();
    static const char call[] = "MPI_Win_create_dynamic";
    check_running(call);
    if (win != NULL) *win = MPI_WIN_NULL;
    return unsupported(comm, call, "windows aren't supported");
}

int MPI_Win_create_errhandler(MPI_Win_errhandler_function *win_errhandler_fn, MPI_Errhandler *errhandler) {
    NOTE_CALLER();
    static const char call[] = "MPI_Win_create_errhandler";
    check_running(call);
    return unsupported(MPI_COMM_WORLD, call, "windows aren't supported");
}

int MPI_Win_create_keyval(MPI_Win_copy_attr_function *win_copy_attr_fn,
    MPI_Win_delete_attr_function *win_delete_attr_fn, int *win_keyval, void *extra_state) {
    NOTE_CALLER();
    static const char call[] = "MPI_Win_create_keyval";
    check_running(call);
    return unsupported(MPI_COMM_WORLD, call, "windows aren't supported");
}

int MPI_Win_delete_attr(MPI_Win win, int win_keyval) {
    NOTE_CALLER();
    static const char call[] = "MPI_Win_delete_attr";
    check_running(call);
    return unsupported(MPI_COMM_WORLD, call, "windows aren't supported");
}

int MPI_Win_detach(MPI_Win win, const void *base) {
    NOTE_CALLER();
    static const char call[] = "MPI_Win_detach";
    check_running(call);
    return unsupported(MPI_COMM_WORLD, call, "windows aren't supported");
}

int MPI_Win_fence(int assert, MPI_Win win) {
    NOTE_CALLER();
    static const char call[] = "MPI_Win_fence";
    check_running(call);
    return unsupported(MPI_COMM_WORLD, call, "windows aren't supported");
}

int MPI_Win_flush(int rank, MPI_Win win) {
    NOTE_CALLER();
    static const char call[] = "MPI_Win_flush";
    check_running(call);
    return unsupported(MPI_COMM_WORLD, call, "windows aren't supported");
}

int MPI_Win_flush_all(MPI_Win win) {
    NOTE_CALLER();
    static const char call[] = "MPI_Win_flush_all";
    check_running(call);
    return unsupported(MPI_COMM_WORLD, call, "windows aren't supported");
}

int MPI_Win_flush_local(int rank, MPI_Win win) {
    NOTE_CALLER();
    static const char call[] = "MPI_Win_flush_local";
    check_running(call);
    return unsupported(MPI_COMM_WORLD, call, "windows aren't supported");
}

int MPI_Win_flush_local_all(MPI_Win win) {
    NOTE_CALLER();
    static const char call[] = "MPI_Win_flush_local_all";
    check_running(call);
    return unsupported(MPI_COMM_WORLD, call, "windows aren't supported");
}

int MPI_Win_free(MPI_Win *win) {
    NOTE_CALLER();
    static const char call[] = "MPI_Win_free";
    check_running(call);
    return unsupported(MPI_COMM_WORLD, call, "windows aren't supported");
}

int MPI_Win_free_keyval(int *win_keyval) {
    NOTE_CALLER();
    static const char call[] = "MPI_Win_free_keyval";
    check_running(call);
    return unsupported(MPI_COMM_WORLD, call, "windows aren't supported");
}

int MPI_Win_get_attr(MPI_Win win, int win_keyval, void *attribute_val, int *flag) {
    NOTE_CALLER();
    static const char call[] = "MPI_Win_get_attr";
    check_running(call);
    return unsupported(MPI_COMM_WORLD, call, "windows aren't supported");
}

int MPI_Win_get_errhandler(MPI_Win win, MPI_Errhandler *errhandler) {
    NOTE_CALLER();
    static const char call[] = "MPI_Win_get_errhandler";
    check_running(call);
    return unsupported(MPI_COMM_WORLD, call, "windows aren't supported");
}

int MPI_Win_get_group(MPI_Win win, MPI_Group *group) {
    NOTE_CALLER();
    static const char call[] = "MPI_Win_get_group";
    check_running(call);
    return unsupported(MPI_COMM_WORLD, call, "windows aren't supported");
}

int MPI_Win_get_info(MPI_Win win, MPI_Info *info_used) {
    NOTE_CALLER();
    static const char call[] = "MPI_Win_get_info";
    check_running(call);
    return unsupported(MPI_COMM_WORLD, call, "windows aren't supported");
}

int MPI_Win_get_name(MPI_Win win, char *win_name, int *resultlen) {
    NOTE_CALLER();
    static const char call[] = "MPI_Win_get_name";
    check_running(call);
    return unsupported(MPI_COMM_WORLD, call, "windows aren't supported");
}

int MPI_Win_lock(int lock_type, int rank, int assert, MPI_Win win) {
    NOTE_CALLER();
    static const char call[] = "MPI_Win_lock";
    check_running(call);
    return unsupported(MPI_COMM_WORLD, call, "windows aren't supported");
}

int MPI_Win_lock_all(int assert, MPI_Win win) {
    NOTE_CALLER();
    static const char call[] = "MPI_Win_lock_all";
    check_running(call);
    return unsupported(MPI_COMM_WORLD, call, "windows aren't supported");
}

int MPI_Win_post(MPI_Group group, int assert, MPI_Win win) {
    NOTE_CALLER();
    static const char call[] = "MPI_Win_post";
    check_running(call);
    return unsupported(MPI_COMM_WORLD, call, "windows aren't supported");
}

int MPI_Win_set_attr(MPI_Win win, int win_keyval, void *attribute_val) {
    NOTE_CALLER();
    static const char call[] = "MPI_Win_set_attr";
    check_running(call);
    return unsupported(MPI_COMM_WORLD, call, "windows aren't supported");
}

int MPI_Win_set_errhandler(MPI_Win win, MPI_Errhandler errhandler) {
    NOTE_CALLER();
    static const char call[] = "MPI_Win_set_errhandler";
    check_running(call);
    return unsupported(MPI_COMM_WORLD, call, "windows aren't supported");
}

int MPI_Win_set_info(MPI_Win win, MPI_Info info) {
    NOTE_CALLER();
    static const char call[] = "MPI_Win_set_info";
    check_running(call);
    return unsupported(MPI_COMM_WORLD, call, "windows aren't supported");
}

int MPI_Win_set_name(MPI_Win win, const char *win_name) {
    NOTE_CALLER();
    static const char call[] = "MPI_Win_set_name";
    check_running(call);
    return unsupported(MPI_COMM_WORLD, call, "windows aren't supported");
}

int MPI_Win_shared_query(MPI_Win win, int rank, MPI_Aint *size, int *disp_unit, void *baseptr) {
    NOTE_CALLER();
    static const char call[] = "MPI_Win_shared_query";
    check_running(call);
    return unsupported(MPI_COMM_WORLD, call, "windows aren't supported");
}

int MPI_Win_start(MPI_Group group, int assert, MPI_Win win) {
    NOTE_CALLER();
    static const char call[] = "MPI_Win_start";
    check_running(call);
    return unsupported(MPI_COMM_WORLD, call, "windows aren't supported");
}

int MPI_Win_sync(MPI_Win win) {
    NOTE_CALLER();
    static const char call[] = "MPI_Win_sync";
    check_running(call);
    return unsupported(MPI_COMM_WORLD, call, "windows aren't supported");
}

int MPI_Win_test(MPI_Win win, int *flag) {
    NOTE_CALLER();
    static const char call[] = "MPI_Win_test";
    check_running(call);
    return unsupported(MPI_COMM_WORLD, call, "windows aren't supported");
}

int MPI_Win_unlock(int rank, MPI_Win win) {
    NOTE_CALLER();
    static const char call[] = "MPI_Win_unlock";
    check_running(call);
    return unsupported(MPI_COMM_WORLD, call, "windows aren't supported");
}

int MPI_Win_unlock_all(MPI_Win win) {
    NOTE_CALLER();
    static const char call[] = "MPI_Win_unlock_all";
    check_running(call);
    return unsupported(MPI_COMM_WORLD, call, "windows aren't supported");
}

int MPI_Win_wait(MPI_Win win) {
    NOTE_CALLER();
    static const char call[] = "MPI_Win_wait";
    check_running(call);
    return unsupported(MPI_COMM_WORLD, call, "windows aren't supported");
}
