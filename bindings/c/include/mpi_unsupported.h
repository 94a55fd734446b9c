/* Windows, files and other processes (MPI 3.1, 10, 11, 13): none is supported. The compiler warns of a call, which
 * links by `mpicc -unsupported-calls` alone, and answers MPI_ERR_UNSUPPORTED_OPERATION.
 * Made by tools/unsupported_calls of unsupported.txt. */
#ifndef KOMBAZILY_MPI_UNSUPPORTED_H
#define KOMBAZILY_MPI_UNSUPPORTED_H
/* clang-format off */

#if defined(__has_attribute) && !defined(KOMBAZILY_UNSUPPORTED_CALLS)
#if __has_attribute(warning)
#define KOMBAZILY_WARNS __attribute__((warning("not supported, and links by mpicc -unsupported-calls: docs/C.md")))
#endif
#endif
#ifndef KOMBAZILY_WARNS
#define KOMBAZILY_WARNS
#endif

/* Processes (10). */
KOMBAZILY_WARNS int MPI_Close_port(const char *port_name);
KOMBAZILY_WARNS int MPI_Comm_accept(const char *port_name, MPI_Info info, int root, MPI_Comm comm, MPI_Comm *newcomm);
KOMBAZILY_WARNS int MPI_Comm_connect(const char *port_name, MPI_Info info, int root, MPI_Comm comm,
    MPI_Comm *newcomm);
KOMBAZILY_WARNS int MPI_Comm_join(int fd, MPI_Comm *intercomm);
KOMBAZILY_WARNS int MPI_Comm_spawn(const char *command, char *argv[], int maxprocs, MPI_Info info, int root,
    MPI_Comm comm, MPI_Comm *intercomm, int array_of_errcodes[]);
KOMBAZILY_WARNS int MPI_Comm_spawn_multiple(int count, char *array_of_commands[], char **array_of_argv[],
    const int array_of_maxprocs[], const MPI_Info array_of_info[], int root, MPI_Comm comm, MPI_Comm *intercomm,
    int array_of_errcodes[]);
KOMBAZILY_WARNS int MPI_Lookup_name(const char *service_name, MPI_Info info, char *port_name);
KOMBAZILY_WARNS int MPI_Open_port(MPI_Info info, char *port_name);
KOMBAZILY_WARNS int MPI_Publish_name(const char *service_name, MPI_Info info, const char *port_name);
KOMBAZILY_WARNS int MPI_Unpublish_name(const char *service_name, MPI_Info info, const char *port_name);
KOMBAZILY_WARNS int PMPI_Close_port(const char *port_name);
KOMBAZILY_WARNS int PMPI_Comm_accept(const char *port_name, MPI_Info info, int root, MPI_Comm comm,
    MPI_Comm *newcomm);
KOMBAZILY_WARNS int PMPI_Comm_connect(const char *port_name, MPI_Info info, int root, MPI_Comm comm,
    MPI_Comm *newcomm);
KOMBAZILY_WARNS int PMPI_Comm_join(int fd, MPI_Comm *intercomm);
KOMBAZILY_WARNS int PMPI_Comm_spawn(const char *command, char *argv[], int maxprocs, MPI_Info info, int root,
    MPI_Comm comm, MPI_Comm *intercomm, int array_of_errcodes[]);
KOMBAZILY_WARNS int PMPI_Comm_spawn_multiple(int count, char *array_of_commands[], char **array_of_argv[],
    const int array_of_maxprocs[], const MPI_Info array_of_info[], int root, MPI_Comm comm, MPI_Comm *intercomm,
    int array_of_errcodes[]);
KOMBAZILY_WARNS int PMPI_Lookup_name(const char *service_name, MPI_Info info, char *port_name);
KOMBAZILY_WARNS int PMPI_Open_port(MPI_Info info, char *port_name);
KOMBAZILY_WARNS int PMPI_Publish_name(const char *service_name, MPI_Info info, const char *port_name);
KOMBAZILY_WARNS int PMPI_Unpublish_name(const char *service_name, MPI_Info info, const char *port_name);

/* Windows (11, 6.7). */
KOMBAZILY_WARNS int MPI_Accumulate(const void *origin_addr, int origin_count, MPI_Datatype origin_datatype,
    int target_rank, MPI_Aint target_disp, int target_count, MPI_Datatype target_datatype, MPI_Op op, MPI_Win win);
KOMBAZILY_WARNS int MPI_Compare_and_swap(const void *origin_addr, const void *compare_addr, void *result_addr,
    MPI_Datatype datatype, int target_rank, MPI_Aint target_disp, MPI_Win win);
KOMBAZILY_WARNS int MPI_Fetch_and_op(const void *origin_addr, void *result_addr, MPI_Datatype datatype,
    int target_rank, MPI_Aint target_disp, MPI_Op op, MPI_Win win);
KOMBAZILY_WARNS int MPI_Get(void *origin_addr, int origin_count, MPI_Datatype origin_datatype, int target_rank,
    MPI_Aint target_disp, int target_count, MPI_Datatype target_datatype, MPI_Win win);
KOMBAZILY_WARNS int MPI_Get_accumulate(const void *origin_addr, int origin_count, MPI_Datatype origin_datatype,
    void *result_addr, int result_count, MPI_Datatype result_datatype, int target_rank, MPI_Aint target_disp,
    int target_count, MPI_Datatype target_datatype, MPI_Op op, MPI_Win win);
KOMBAZILY_WARNS int MPI_Put(const void *origin_addr, int origin_count, MPI_Datatype origin_datatype, int target_rank,
    MPI_Aint target_disp, int target_count, MPI_Datatype target_datatype, MPI_Win win);
KOMBAZILY_WARNS int MPI_Raccumulate(const void *origin_addr, int origin_count, MPI_Datatype origin_datatype,
    int target_rank, MPI_Aint target_disp, int target_count, MPI_Datatype target_datatype, MPI_Op op, MPI_Win win,
    MPI_Request *request);
KOMBAZILY_WARNS int MPI_Rget(void *origin_addr, int origin_count, MPI_Datatype origin_datatype, int target_rank,
    MPI_Aint target_disp, int target_count, MPI_Datatype target_datatype, MPI_Win win, MPI_Request *request);
KOMBAZILY_WARNS int MPI_Rget_accumulate(const void *origin_addr, int origin_count, MPI_Datatype origin_datatype,
    void *result_addr, int result_count, MPI_Datatype result_datatype, int target_rank, MPI_Aint target_disp,
    int target_count, MPI_Datatype target_datatype, MPI_Op op, MPI_Win win, MPI_Request *request);
KOMBAZILY_WARNS int MPI_Rput(const void *origin_addr, int origin_count, MPI_Datatype origin_datatype, int target_rank,
    MPI_Aint target_disp, int target_count, MPI_Datatype target_datatype, MPI_Win win, MPI_Request *request);
KOMBAZILY_WARNS int MPI_Win_allocate(MPI_Aint size, int disp_unit, MPI_Info info, MPI_Comm comm, void *baseptr,
    MPI_Win *win);
KOMBAZILY_WARNS int MPI_Win_allocate_shared(MPI_Aint size, int disp_unit, MPI_Info info, MPI_Comm comm, void *baseptr,
    MPI_Win *win);
KOMBAZILY_WARNS int MPI_Win_attach(MPI_Win win, void *base, MPI_Aint size);
KOMBAZILY_WARNS int MPI_Win_call_errhandler(MPI_Win win, int errorcode);
KOMBAZILY_WARNS int MPI_Win_complete(MPI_Win win);
KOMBAZILY_WARNS int MPI_Win_create(void *base, MPI_Aint size, int disp_unit, MPI_Info info, MPI_Comm comm,
    MPI_Win *win);
KOMBAZILY_WARNS int MPI_Win_create_dynamic(MPI_Info info, MPI_Comm comm, MPI_Win *win);
KOMBAZILY_WARNS int MPI_Win_create_errhandler(MPI_Win_errhandler_function *win_errhandler_fn,
    MPI_Errhandler *errhandler);
KOMBAZILY_WARNS int MPI_Win_create_keyval(MPI_Win_copy_attr_function *win_copy_attr_fn,
    MPI_Win_delete_attr_function *win_delete_attr_fn, int *win_keyval, void *extra_state);
KOMBAZILY_WARNS int MPI_Win_delete_attr(MPI_Win win, int win_keyval);
KOMBAZILY_WARNS int MPI_Win_detach(MPI_Win win, const void *base);
KOMBAZILY_WARNS int MPI_Win_fence(int assert, MPI_Win win);
KOMBAZILY_WARNS int MPI_Win_flush(int rank, MPI_Win win);
KOMBAZILY_WARNS int MPI_Win_flush_all(MPI_Win win);
KOMBAZILY_WARNS int MPI_Win_flush_local(int rank, MPI_Win win);
KOMBAZILY_WARNS int MPI_Win_flush_local_all(MPI_Win win);
KOMBAZILY_WARNS int MPI_Win_free(MPI_Win *win);
KOMBAZILY_WARNS int MPI_Win_free_keyval(int *win_keyval);
KOMBAZILY_WARNS int MPI_Win_get_attr(MPI_Win win, int win_keyval, void *attribute_val, int *flag);
KOMBAZILY_WARNS int MPI_Win_get_errhandler(MPI_Win win, MPI_Errhandler *errhandler);
KOMBAZILY_WARNS int MPI_Win_get_group(MPI_Win win, MPI_Group *group);
KOMBAZILY_WARNS int MPI_Win_get_info(MPI_Win win, MPI_Info *info_used);
KOMBAZILY_WARNS int MPI_Win_get_name(MPI_Win win, char *win_name, int *resultlen);
KOMBAZILY_WARNS int MPI_Win_lock(int lock_type, int rank, int assert, MPI_Win win);
KOMBAZILY_WARNS int MPI_Win_lock_all(int assert, MPI_Win win);
KOMBAZILY_WARNS int MPI_Win_post(MPI_Group group, int assert, MPI_Win win);
KOMBAZILY_WARNS int MPI_Win_set_attr(MPI_Win win, int win_keyval, void *attribute_val);
KOMBAZILY_WARNS int MPI_Win_set_errhandler(MPI_Win win, MPI_Errhandler errhandler);
KOMBAZILY_WARNS int MPI_Win_set_info(MPI_Win win, MPI_Info info);
KOMBAZILY_WARNS int MPI_Win_set_name(MPI_Win win, const char *win_name);
KOMBAZILY_WARNS int MPI_Win_shared_query(MPI_Win win, int rank, MPI_Aint *size, int *disp_unit, void *baseptr);
KOMBAZILY_WARNS int MPI_Win_start(MPI_Group group, int assert, MPI_Win win);
KOMBAZILY_WARNS int MPI_Win_sync(MPI_Win win);
KOMBAZILY_WARNS int MPI_Win_test(MPI_Win win, int *flag);
KOMBAZILY_WARNS int MPI_Win_unlock(int rank, MPI_Win win);
KOMBAZILY_WARNS int MPI_Win_unlock_all(MPI_Win win);
KOMBAZILY_WARNS int MPI_Win_wait(MPI_Win win);
KOMBAZILY_WARNS int PMPI_Accumulate(const void *origin_addr, int origin_count, MPI_Datatype origin_datatype,
    int target_rank, MPI_Aint target_disp, int target_count, MPI_Datatype target_datatype, MPI_Op op, MPI_Win win);
KOMBAZILY_WARNS int PMPI_Compare_and_swap(const void *origin_addr, const void *compare_addr, void *result_addr,
    MPI_Datatype datatype, int target_rank, MPI_Aint target_disp, MPI_Win win);
KOMBAZILY_WARNS int PMPI_Fetch_and_op(const void *origin_addr, void *result_addr, MPI_Datatype datatype,
    int target_rank, MPI_Aint target_disp, MPI_Op op, MPI_Win win);
KOMBAZILY_WARNS int PMPI_Get(void *origin_addr, int origin_count, MPI_Datatype origin_datatype, int target_rank,
    MPI_Aint target_disp, int target_count, MPI_Datatype target_datatype, MPI_Win win);
KOMBAZILY_WARNS int PMPI_Get_accumulate(const void *origin_addr, int origin_count, MPI_Datatype origin_datatype,
    void *result_addr, int result_count, MPI_Datatype result_datatype, int target_rank, MPI_Aint target_disp,
    int target_count, MPI_Datatype target_datatype, MPI_Op op, MPI_Win win);
KOMBAZILY_WARNS int PMPI_Put(const void *origin_addr, int origin_count, MPI_Datatype origin_datatype, int target_rank,
    MPI_Aint target_disp, int target_count, MPI_Datatype target_datatype, MPI_Win win);
KOMBAZILY_WARNS int PMPI_Raccumulate(const void *origin_addr, int origin_count, MPI_Datatype origin_datatype,
    int target_rank, MPI_Aint target_disp, int target_count, MPI_Datatype target_datatype, MPI_Op op, MPI_Win win,
    MPI_Request *request);
KOMBAZILY_WARNS int PMPI_Rget(void *origin_addr, int origin_count, MPI_Datatype origin_datatype, int target_rank,
    MPI_Aint target_disp, int target_count, MPI_Datatype target_datatype, MPI_Win win, MPI_Request *request);
KOMBAZILY_WARNS int PMPI_Rget_accumulate(const void *origin_addr, int origin_count, MPI_Datatype origin_datatype,
    void *result_addr, int result_count, MPI_Datatype result_datatype, int target_rank, MPI_Aint target_disp,
    int target_count, MPI_Datatype target_datatype, MPI_Op op, MPI_Win win, MPI_Request *request);
KOMBAZILY_WARNS int PMPI_Rput(const void *origin_addr, int origin_count, MPI_Datatype origin_datatype,
    int target_rank, MPI_Aint target_disp, int target_count, MPI_Datatype target_datatype, MPI_Win win,
    MPI_Request *request);
KOMBAZILY_WARNS int PMPI_Win_allocate(MPI_Aint size, int disp_unit, MPI_Info info, MPI_Comm comm, void *baseptr,
    MPI_Win *win);
KOMBAZILY_WARNS int PMPI_Win_allocate_shared(MPI_Aint size, int disp_unit, MPI_Info info, MPI_Comm comm,
    void *baseptr, MPI_Win *win);
KOMBAZILY_WARNS int PMPI_Win_attach(MPI_Win win, void *base, MPI_Aint size);
KOMBAZILY_WARNS int PMPI_Win_call_errhandler(MPI_Win win, int errorcode);
KOMBAZILY_WARNS int PMPI_Win_complete(MPI_Win win);
KOMBAZILY_WARNS int PMPI_Win_create(void *base, MPI_Aint size, int disp_unit, MPI_Info info, MPI_Comm comm,
    MPI_Win *win);
KOMBAZILY_WARNS int PMPI_Win_create_dynamic(MPI_Info info, MPI_Comm comm, MPI_Win *win);
KOMBAZILY_WARNS int PMPI_Win_create_errhandler(MPI_Win_errhandler_function *win_errhandler_fn,
    MPI_Errhandler *errhandler);
KOMBAZILY_WARNS int PMPI_Win_create_keyval(MPI_Win_copy_attr_function *win_copy_attr_fn,
    MPI_Win_delete_attr_function *win_delete_attr_fn, int *win_keyval, void *extra_state);
KOMBAZILY_WARNS int PMPI_Win_delete_attr(MPI_Win win, int win_keyval);
KOMBAZILY_WARNS int PMPI_Win_detach(MPI_Win win, const void *base);
KOMBAZILY_WARNS int PMPI_Win_fence(int assert, MPI_Win win);
KOMBAZILY_WARNS int PMPI_Win_flush(int rank, MPI_Win win);
KOMBAZILY_WARNS int PMPI_Win_flush_all(MPI_Win win);
KOMBAZILY_WARNS int PMPI_Win_flush_local(int rank, MPI_Win win);
KOMBAZILY_WARNS int PMPI_Win_flush_local_all(MPI_Win win);
KOMBAZILY_WARNS int PMPI_Win_free(MPI_Win *win);
KOMBAZILY_WARNS int PMPI_Win_free_keyval(int *win_keyval);
KOMBAZILY_WARNS int PMPI_Win_get_attr(MPI_Win win, int win_keyval, void *attribute_val, int *flag);
KOMBAZILY_WARNS int PMPI_Win_get_errhandler(MPI_Win win, MPI_Errhandler *errhandler);
KOMBAZILY_WARNS int PMPI_Win_get_group(MPI_Win win, MPI_Group *group);
KOMBAZILY_WARNS int PMPI_Win_get_info(MPI_Win win, MPI_Info *info_used);
KOMBAZILY_WARNS int PMPI_Win_get_name(MPI_Win win, char *win_name, int *resultlen);
KOMBAZILY_WARNS int PMPI_Win_lock(int lock_type, int rank, int assert, MPI_Win win);
KOMBAZILY_WARNS int PMPI_Win_lock_all(int assert, MPI_Win win);
KOMBAZILY_WARNS int PMPI_Win_post(MPI_Group group, int assert, MPI_Win win);
KOMBAZILY_WARNS int PMPI_Win_set_attr(MPI_Win win, int win_keyval, void *attribute_val);
KOMBAZILY_WARNS int PMPI_Win_set_errhandler(MPI_Win win, MPI_Errhandler errhandler);
KOMBAZILY_WARNS int PMPI_Win_set_info(MPI_Win win, MPI_Info info);
KOMBAZILY_WARNS int PMPI_Win_set_name(MPI_Win win, const char *win_name);
KOMBAZILY_WARNS int PMPI_Win_shared_query(MPI_Win win, int rank, MPI_Aint *size, int *disp_unit, void *baseptr);
KOMBAZILY_WARNS int PMPI_Win_start(MPI_Group group, int assert, MPI_Win win);
KOMBAZILY_WARNS int PMPI_Win_sync(MPI_Win win);
KOMBAZILY_WARNS int PMPI_Win_test(MPI_Win win, int *flag);
KOMBAZILY_WARNS int PMPI_Win_unlock(int rank, MPI_Win win);
KOMBAZILY_WARNS int PMPI_Win_unlock_all(MPI_Win win);
KOMBAZILY_WARNS int PMPI_Win_wait(MPI_Win win);

/* Files (13). */
KOMBAZILY_WARNS int MPI_File_call_errhandler(MPI_File fh, int errorcode);
KOMBAZILY_WARNS int MPI_File_close(MPI_File *fh);
KOMBAZILY_WARNS int MPI_File_create_errhandler(MPI_File_errhandler_function *file_errhandler_fn,
    MPI_Errhandler *errhandler);
KOMBAZILY_WARNS int MPI_File_delete(const char *filename, MPI_Info info);
KOMBAZILY_WARNS int MPI_File_get_amode(MPI_File fh, int *amode);
KOMBAZILY_WARNS int MPI_File_get_atomicity(MPI_File fh, int *flag);
KOMBAZILY_WARNS int MPI_File_get_byte_offset(MPI_File fh, MPI_Offset offset, MPI_Offset *disp);
KOMBAZILY_WARNS int MPI_File_get_group(MPI_File fh, MPI_Group *group);
KOMBAZILY_WARNS int MPI_File_get_info(MPI_File fh, MPI_Info *info_used);
KOMBAZILY_WARNS int MPI_File_get_position(MPI_File fh, MPI_Offset *offset);
KOMBAZILY_WARNS int MPI_File_get_position_shared(MPI_File fh, MPI_Offset *offset);
KOMBAZILY_WARNS int MPI_File_get_size(MPI_File fh, MPI_Offset *size);
KOMBAZILY_WARNS int MPI_File_get_type_extent(MPI_File fh, MPI_Datatype datatype, MPI_Aint *extent);
KOMBAZILY_WARNS int MPI_File_get_view(MPI_File fh, MPI_Offset *disp, MPI_Datatype *etype, MPI_Datatype *filetype,
    char *datarep);
KOMBAZILY_WARNS int MPI_File_iread(MPI_File fh, void *buf, int count, MPI_Datatype datatype, MPI_Request *request);
KOMBAZILY_WARNS int MPI_File_iread_all(MPI_File fh, void *buf, int count, MPI_Datatype datatype,
    MPI_Request *request);
KOMBAZILY_WARNS int MPI_File_iread_at(MPI_File fh, MPI_Offset offset, void *buf, int count, MPI_Datatype datatype,
    MPI_Request *request);
KOMBAZILY_WARNS int MPI_File_iread_at_all(MPI_File fh, MPI_Offset offset, void *buf, int count, MPI_Datatype datatype,
    MPI_Request *request);
KOMBAZILY_WARNS int MPI_File_iread_shared(MPI_File fh, void *buf, int count, MPI_Datatype datatype,
    MPI_Request *request);
KOMBAZILY_WARNS int MPI_File_iwrite(MPI_File fh, const void *buf, int count, MPI_Datatype datatype,
    MPI_Request *request);
KOMBAZILY_WARNS int MPI_File_iwrite_all(MPI_File fh, const void *buf, int count, MPI_Datatype datatype,
    MPI_Request *request);
KOMBAZILY_WARNS int MPI_File_iwrite_at(MPI_File fh, MPI_Offset offset, const void *buf, int count,
    MPI_Datatype datatype, MPI_Request *request);
KOMBAZILY_WARNS int MPI_File_iwrite_at_all(MPI_File fh, MPI_Offset offset, const void *buf, int count,
    MPI_Datatype datatype, MPI_Request *request);
KOMBAZILY_WARNS int MPI_File_iwrite_shared(MPI_File fh, const void *buf, int count, MPI_Datatype datatype,
    MPI_Request *request);
KOMBAZILY_WARNS int MPI_File_open(MPI_Comm comm, const char *filename, int amode, MPI_Info info, MPI_File *fh);
KOMBAZILY_WARNS int MPI_File_preallocate(MPI_File fh, MPI_Offset size);
KOMBAZILY_WARNS int MPI_File_read(MPI_File fh, void *buf, int count, MPI_Datatype datatype, MPI_Status *status);
KOMBAZILY_WARNS int MPI_File_read_all(MPI_File fh, void *buf, int count, MPI_Datatype datatype, MPI_Status *status);
KOMBAZILY_WARNS int MPI_File_read_all_begin(MPI_File fh, void *buf, int count, MPI_Datatype datatype);
KOMBAZILY_WARNS int MPI_File_read_all_end(MPI_File fh, void *buf, MPI_Status *status);
KOMBAZILY_WARNS int MPI_File_read_at(MPI_File fh, MPI_Offset offset, void *buf, int count, MPI_Datatype datatype,
    MPI_Status *status);
KOMBAZILY_WARNS int MPI_File_read_at_all(MPI_File fh, MPI_Offset offset, void *buf, int count, MPI_Datatype datatype,
    MPI_Status *status);
KOMBAZILY_WARNS int MPI_File_read_at_all_begin(MPI_File fh, MPI_Offset offset, void *buf, int count,
    MPI_Datatype datatype);
KOMBAZILY_WARNS int MPI_File_read_at_all_end(MPI_File fh, void *buf, MPI_Status *status);
KOMBAZILY_WARNS int MPI_File_read_ordered(MPI_File fh, void *buf, int count, MPI_Datatype datatype,
    MPI_Status *status);
KOMBAZILY_WARNS int MPI_File_read_ordered_begin(MPI_File fh, void *buf, int count, MPI_Datatype datatype);
KOMBAZILY_WARNS int MPI_File_read_ordered_end(MPI_File fh, void *buf, MPI_Status *status);
KOMBAZILY_WARNS int MPI_File_read_shared(MPI_File fh, void *buf, int count, MPI_Datatype datatype,
    MPI_Status *status);
KOMBAZILY_WARNS int MPI_File_seek(MPI_File fh, MPI_Offset offset, int whence);
KOMBAZILY_WARNS int MPI_File_seek_shared(MPI_File fh, MPI_Offset offset, int whence);
KOMBAZILY_WARNS int MPI_File_set_atomicity(MPI_File fh, int flag);
KOMBAZILY_WARNS int MPI_File_set_info(MPI_File fh, MPI_Info info);
KOMBAZILY_WARNS int MPI_File_set_size(MPI_File fh, MPI_Offset size);
KOMBAZILY_WARNS int MPI_File_set_view(MPI_File fh, MPI_Offset disp, MPI_Datatype etype, MPI_Datatype filetype,
    const char *datarep, MPI_Info info);
KOMBAZILY_WARNS int MPI_File_sync(MPI_File fh);
KOMBAZILY_WARNS int MPI_File_write(MPI_File fh, const void *buf, int count, MPI_Datatype datatype,
    MPI_Status *status);
KOMBAZILY_WARNS int MPI_File_write_all(MPI_File fh, const void *buf, int count, MPI_Datatype datatype,
    MPI_Status *status);
KOMBAZILY_WARNS int MPI_File_write_all_begin(MPI_File fh, const void *buf, int count, MPI_Datatype datatype);
KOMBAZILY_WARNS int MPI_File_write_all_end(MPI_File fh, const void *buf, MPI_Status *status);
KOMBAZILY_WARNS int MPI_File_write_at(MPI_File fh, MPI_Offset offset, const void *buf, int count,
    MPI_Datatype datatype, MPI_Status *status);
KOMBAZILY_WARNS int MPI_File_write_at_all(MPI_File fh, MPI_Offset offset, const void *buf, int count,
    MPI_Datatype datatype, MPI_Status *status);
KOMBAZILY_WARNS int MPI_File_write_at_all_begin(MPI_File fh, MPI_Offset offset, const void *buf, int count,
    MPI_Datatype datatype);
KOMBAZILY_WARNS int MPI_File_write_at_all_end(MPI_File fh, const void *buf, MPI_Status *status);
KOMBAZILY_WARNS int MPI_File_write_ordered(MPI_File fh, const void *buf, int count, MPI_Datatype datatype,
    MPI_Status *status);
KOMBAZILY_WARNS int MPI_File_write_ordered_begin(MPI_File fh, const void *buf, int count, MPI_Datatype datatype);
KOMBAZILY_WARNS int MPI_File_write_ordered_end(MPI_File fh, const void *buf, MPI_Status *status);
KOMBAZILY_WARNS int MPI_File_write_shared(MPI_File fh, const void *buf, int count, MPI_Datatype datatype,
    MPI_Status *status);
KOMBAZILY_WARNS int MPI_Register_datarep(const char *datarep, MPI_Datarep_conversion_function *read_conversion_fn,
    MPI_Datarep_conversion_function *write_conversion_fn, MPI_Datarep_extent_function *dtype_file_extent_fn,
    void *extra_state);
KOMBAZILY_WARNS int PMPI_File_call_errhandler(MPI_File fh, int errorcode);
KOMBAZILY_WARNS int PMPI_File_close(MPI_File *fh);
KOMBAZILY_WARNS int PMPI_File_create_errhandler(MPI_File_errhandler_function *file_errhandler_fn,
    MPI_Errhandler *errhandler);
KOMBAZILY_WARNS int PMPI_File_delete(const char *filename, MPI_Info info);
KOMBAZILY_WARNS int PMPI_File_get_amode(MPI_File fh, int *amode);
KOMBAZILY_WARNS int PMPI_File_get_atomicity(MPI_File fh, int *flag);
KOMBAZILY_WARNS int PMPI_File_get_byte_offset(MPI_File fh, MPI_Offset offset, MPI_Offset *disp);
KOMBAZILY_WARNS int PMPI_File_get_group(MPI_File fh, MPI_Group *group);
KOMBAZILY_WARNS int PMPI_File_get_info(MPI_File fh, MPI_Info *info_used);
KOMBAZILY_WARNS int PMPI_File_get_position(MPI_File fh, MPI_Offset *offset);
KOMBAZILY_WARNS int PMPI_File_get_position_shared(MPI_File fh, MPI_Offset *offset);
KOMBAZILY_WARNS int PMPI_File_get_size(MPI_File fh, MPI_Offset *size);
KOMBAZILY_WARNS int PMPI_File_get_type_extent(MPI_File fh, MPI_Datatype datatype, MPI_Aint *extent);
KOMBAZILY_WARNS int PMPI_File_get_view(MPI_File fh, MPI_Offset *disp, MPI_Datatype *etype, MPI_Datatype *filetype,
    char *datarep);
KOMBAZILY_WARNS int PMPI_File_iread(MPI_File fh, void *buf, int count, MPI_Datatype datatype, MPI_Request *request);
KOMBAZILY_WARNS int PMPI_File_iread_all(MPI_File fh, void *buf, int count, MPI_Datatype datatype,
    MPI_Request *request);
KOMBAZILY_WARNS int PMPI_File_iread_at(MPI_File fh, MPI_Offset offset, void *buf, int count, MPI_Datatype datatype,
    MPI_Request *request);
KOMBAZILY_WARNS int PMPI_File_iread_at_all(MPI_File fh, MPI_Offset offset, void *buf, int count,
    MPI_Datatype datatype, MPI_Request *request);
KOMBAZILY_WARNS int PMPI_File_iread_shared(MPI_File fh, void *buf, int count, MPI_Datatype datatype,
    MPI_Request *request);
KOMBAZILY_WARNS int PMPI_File_iwrite(MPI_File fh, const void *buf, int count, MPI_Datatype datatype,
    MPI_Request *request);
KOMBAZILY_WARNS int PMPI_File_iwrite_all(MPI_File fh, const void *buf, int count, MPI_Datatype datatype,
    MPI_Request *request);
KOMBAZILY_WARNS int PMPI_File_iwrite_at(MPI_File fh, MPI_Offset offset, const void *buf, int count,
    MPI_Datatype datatype, MPI_Request *request);
KOMBAZILY_WARNS int PMPI_File_iwrite_at_all(MPI_File fh, MPI_Offset offset, const void *buf, int count,
    MPI_Datatype datatype, MPI_Request *request);
KOMBAZILY_WARNS int PMPI_File_iwrite_shared(MPI_File fh, const void *buf, int count, MPI_Datatype datatype,
    MPI_Request *request);
KOMBAZILY_WARNS int PMPI_File_open(MPI_Comm comm, const char *filename, int amode, MPI_Info info, MPI_File *fh);
KOMBAZILY_WARNS int PMPI_File_preallocate(MPI_File fh, MPI_Offset size);
KOMBAZILY_WARNS int PMPI_File_read(MPI_File fh, void *buf, int count, MPI_Datatype datatype, MPI_Status *status);
KOMBAZILY_WARNS int PMPI_File_read_all(MPI_File fh, void *buf, int count, MPI_Datatype datatype, MPI_Status *status);
KOMBAZILY_WARNS int PMPI_File_read_all_begin(MPI_File fh, void *buf, int count, MPI_Datatype datatype);
KOMBAZILY_WARNS int PMPI_File_read_all_end(MPI_File fh, void *buf, MPI_Status *status);
KOMBAZILY_WARNS int PMPI_File_read_at(MPI_File fh, MPI_Offset offset, void *buf, int count, MPI_Datatype datatype,
    MPI_Status *status);
KOMBAZILY_WARNS int PMPI_File_read_at_all(MPI_File fh, MPI_Offset offset, void *buf, int count, MPI_Datatype datatype,
    MPI_Status *status);
KOMBAZILY_WARNS int PMPI_File_read_at_all_begin(MPI_File fh, MPI_Offset offset, void *buf, int count,
    MPI_Datatype datatype);
KOMBAZILY_WARNS int PMPI_File_read_at_all_end(MPI_File fh, void *buf, MPI_Status *status);
KOMBAZILY_WARNS int PMPI_File_read_ordered(MPI_File fh, void *buf, int count, MPI_Datatype datatype,
    MPI_Status *status);
KOMBAZILY_WARNS int PMPI_File_read_ordered_begin(MPI_File fh, void *buf, int count, MPI_Datatype datatype);
KOMBAZILY_WARNS int PMPI_File_read_ordered_end(MPI_File fh, void *buf, MPI_Status *status);
KOMBAZILY_WARNS int PMPI_File_read_shared(MPI_File fh, void *buf, int count, MPI_Datatype datatype,
    MPI_Status *status);
KOMBAZILY_WARNS int PMPI_File_seek(MPI_File fh, MPI_Offset offset, int whence);
KOMBAZILY_WARNS int PMPI_File_seek_shared(MPI_File fh, MPI_Offset offset, int whence);
KOMBAZILY_WARNS int PMPI_File_set_atomicity(MPI_File fh, int flag);
KOMBAZILY_WARNS int PMPI_File_set_info(MPI_File fh, MPI_Info info);
KOMBAZILY_WARNS int PMPI_File_set_size(MPI_File fh, MPI_Offset size);
KOMBAZILY_WARNS int PMPI_File_set_view(MPI_File fh, MPI_Offset disp, MPI_Datatype etype, MPI_Datatype filetype,
    const char *datarep, MPI_Info info);
KOMBAZILY_WARNS int PMPI_File_sync(MPI_File fh);
KOMBAZILY_WARNS int PMPI_File_write(MPI_File fh, const void *buf, int count, MPI_Datatype datatype,
    MPI_Status *status);
KOMBAZILY_WARNS int PMPI_File_write_all(MPI_File fh, const void *buf, int count, MPI_Datatype datatype,
    MPI_Status *status);
KOMBAZILY_WARNS int PMPI_File_write_all_begin(MPI_File fh, const void *buf, int count, MPI_Datatype datatype);
KOMBAZILY_WARNS int PMPI_File_write_all_end(MPI_File fh, const void *buf, MPI_Status *status);
KOMBAZILY_WARNS int PMPI_File_write_at(MPI_File fh, MPI_Offset offset, const void *buf, int count,
    MPI_Datatype datatype, MPI_Status *status);
KOMBAZILY_WARNS int PMPI_File_write_at_all(MPI_File fh, MPI_Offset offset, const void *buf, int count,
    MPI_Datatype datatype, MPI_Status *status);
KOMBAZILY_WARNS int PMPI_File_write_at_all_begin(MPI_File fh, MPI_Offset offset, const void *buf, int count,
    MPI_Datatype datatype);
KOMBAZILY_WARNS int PMPI_File_write_at_all_end(MPI_File fh, const void *buf, MPI_Status *status);
KOMBAZILY_WARNS int PMPI_File_write_ordered(MPI_File fh, const void *buf, int count, MPI_Datatype datatype,
    MPI_Status *status);
KOMBAZILY_WARNS int PMPI_File_write_ordered_begin(MPI_File fh, const void *buf, int count, MPI_Datatype datatype);
KOMBAZILY_WARNS int PMPI_File_write_ordered_end(MPI_File fh, const void *buf, MPI_Status *status);
KOMBAZILY_WARNS int PMPI_File_write_shared(MPI_File fh, const void *buf, int count, MPI_Datatype datatype,
    MPI_Status *status);
KOMBAZILY_WARNS int PMPI_Register_datarep(const char *datarep, MPI_Datarep_conversion_function *read_conversion_fn,
    MPI_Datarep_conversion_function *write_conversion_fn, MPI_Datarep_extent_function *dtype_file_extent_fn,
    void *extra_state);

#endif
