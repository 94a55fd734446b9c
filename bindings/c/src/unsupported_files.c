/* Files (MPI 3.1, 13): files aren't supported, and each call says so.
 * Made by tools/unsupported_calls of unsupported.txt. */
/* clang-format off */
#include "unsupported.h"

#pragma GCC diagnostic ignored "-Wunused-parameter"

int MPI_File_call_errhandler(MPI_File fh, int errorcode) {
    NOTE_CALLER();
    static const char call[] = "MPI_File_call_errhandler";
    check_running(call);
    return unsupported_of_file(call);
}

int MPI_File_close(MPI_File *fh) {
    NOTE_CALLER();
    static const char call[] = "MPI_File_close";
    check_running(call);
    return unsupported_of_file(call);
}

int MPI_File_create_errhandler(MPI_File_errhandler_function *file_errhandler_fn, MPI_Errhandler *errhandler) {
    NOTE_CALLER();
    static const char call[] = "MPI_File_create_errhandler";
    check_running(call);
    return unsupported_of_file(call);
}

int MPI_File_delete(const char *filename, MPI_Info info) {
    NOTE_CALLER();
    static const char call[] = "MPI_File_delete";
    check_running(call);
    return unsupported_of_file(call);
}

int MPI_File_get_amode(MPI_File fh, int *amode) {
    NOTE_CALLER();
    static const char call[] = "MPI_File_get_amode";
    check_running(call);
    return unsupported_of_file(call);
}

int MPI_File_get_atomicity(MPI_File fh, int *flag) {
    NOTE_CALLER();
    static const char call[] = "MPI_File_get_atomicity";
    check_running(call);
    return unsupported_of_file(call);
}

int MPI_File_get_byte_offset(MPI_File fh, MPI_Offset offset, MPI_Offset *disp) {
    NOTE_CALLER();
    static const char call[] = "MPI_File_get_byte_offset";
    check_running(call);
    return unsupported_of_file(call);
}

int MPI_File_get_group(MPI_File fh, MPI_Group *group) {
    NOTE_CALLER();
    static const char call[] = "MPI_File_get_group";
    check_running(call);
    return unsupported_of_file(call);
}

int MPI_File_get_info(MPI_File fh, MPI_Info *info_used) {
    NOTE_CALLER();
    static const char call[] = "MPI_File_get_info";
    check_running(call);
    return unsupported_of_file(call);
}

int MPI_File_get_position(MPI_File fh, MPI_Offset *offset) {
    NOTE_CALLER();
    static const char call[] = "MPI_File_get_position";
    check_running(call);
    return unsupported_of_file(call);
}

int MPI_File_get_position_shared(MPI_File fh, MPI_Offset *offset) {
    NOTE_CALLER();
    static const char call[] = "MPI_File_get_position_shared";
    check_running(call);
    return unsupported_of_file(call);
}

int MPI_File_get_size(MPI_File fh, MPI_Offset *size) {
    NOTE_CALLER();
    static const char call[] = "MPI_File_get_size";
    check_running(call);
    return unsupported_of_file(call);
}

int MPI_File_get_type_extent(MPI_File fh, MPI_Datatype datatype, MPI_Aint *extent) {
    NOTE_CALLER();
    static const char call[] = "MPI_File_get_type_extent";
    check_running(call);
    return unsupported_of_file(call);
}

int MPI_File_get_view(MPI_File fh, MPI_Offset *disp, MPI_Datatype *etype, MPI_Datatype *filetype, char *datarep) {
    NOTE_CALLER();
    static const char call[] = "MPI_File_get_view";
    check_running(call);
    return unsupported_of_file(call);
}

int MPI_File_iread(MPI_File fh, void *buf, int count, MPI_Datatype datatype, MPI_Request *request) {
    NOTE_CALLER();
    static const char call[] = "MPI_File_iread";
    check_running(call);
    if (request != NULL) *request = MPI_REQUEST_NULL;
    return unsupported_of_file(call);
}

int MPI_File_iread_all(MPI_File fh, void *buf, int count, MPI_Datatype datatype, MPI_Request *request) {
    NOTE_CALLER();
    static const char call[] = "MPI_File_iread_all";
    check_running(call);
    if (request != NULL) *request = MPI_REQUEST_NULL;
    return unsupported_of_file(call);
}

int MPI_File_iread_at(MPI_File fh, MPI_Offset offset, void *buf, int count, MPI_Datatype datatype,
    MPI_Request *request) {
    NOTE_CALLER();
    static const char call[] = "MPI_File_iread_at";
    check_running(call);
    if (request != NULL) *request = MPI_REQUEST_NULL;
    return unsupported_of_file(call);
}

int MPI_File_iread_at_all(MPI_File fh, MPI_Offset offset, void *buf, int count, MPI_Datatype datatype,
    MPI_Request *request) {
    NOTE_CALLER();
    static const char call[] = "MPI_File_iread_at_all";
    check_running(call);
    if (request != NULL) *request = MPI_REQUEST_NULL;
    return unsupported_of_file(call);
}

int MPI_File_iread_shared(MPI_File fh, void *buf, int count, MPI_Datatype datatype, MPI_Request *request) {
    NOTE_CALLER();
    static const char call[] = "MPI_File_iread_shared";
    check_running(call);
    if (request != NULL) *request = MPI_REQUEST_NULL;
    return unsupported_of_file(call);
}

int MPI_File_iwrite(MPI_File fh, const void *buf, int count, MPI_Datatype datatype, MPI_Request *request) {
    NOTE_CALLER();
    static const char call[] = "MPI_File_iwrite";
    check_running(call);
    if (request != NULL) *request = MPI_REQUEST_NULL;
    return unsupported_of_file(call);
}

int MPI_File_iwrite_all(MPI_File fh, const void *buf, int count, MPI_Datatype datatype, MPI_Request *request) {
    NOTE_CALLER();
    static const char call[] = "MPI_File_iwrite_all";
    check_running(call);
    if (request != NULL) *request = MPI_REQUEST_NULL;
    return unsupported_of_file(call);
}

int MPI_File_iwrite_at(MPI_File fh, MPI_Offset offset, const void *buf, int count, MPI_Datatype datatype,
    MPI_Request *request) {
    NOTE_CALLER();
    static const char call[] = "MPI_File_iwrite_at";
    check_running(call);
    if (request != NULL) *request = MPI_REQUEST_NULL;
    return unsupported_of_file(call);
}

int MPI_File_iwrite_at_all(MPI_File fh, MPI_Offset offset, const void *buf, int count, MPI_Datatype datatype,
    MPI_Request *request) {
    NOTE_CALLER();
    static const char call[] = "MPI_File_iwrite_at_all";
    check_running(call);
    if (request != NULL) *request = MPI_REQUEST_NULL;
    return unsupported_of_file(call);
}

int MPI_File_iwrite_shared(MPI_File fh, const void *buf, int count, MPI_Datatype datatype, MPI_Request *request) {
    NOTE_CALLER();
    static const char call[] = "MPI_File_iwrite_shared";
    check_running(call);
    if (request != NULL) *request = MPI_REQUEST_NULL;
    return unsupported_of_file(call);
}

int MPI_File_open(MPI_Comm comm, const char *filename, int amode, MPI_Info info, MPI_File *fh) {
    NOTE_CALLER();
    static const char call[] = "MPI_File_open";
    check_running(call);
    if (fh != NULL) *fh = MPI_FILE_NULL;
    return unsupported_of_file(call);
}

int MPI_File_preallocate(MPI_File fh, MPI_Offset size) {
    NOTE_CALLER();
    static const char call[] = "MPI_File_preallocate";
    check_running(call);
    return unsupported_of_file(call);
}

int MPI_File_read(MPI_File fh, void *buf, int count, MPI_Datatype datatype, MPI_Status *status) {
    NOTE_CALLER();
    static const char call[] = "MPI_File_read";
    check_running(call);
    return unsupported_of_file(call);
}

int MPI_File_read_all(MPI_File fh, void *buf, int count, MPI_Datatype datatype, MPI_Status *status) {
    NOTE_CALLER();
    static const char call[] = "MPI_File_read_all";
    check_running(call);
    return unsupported_of_file(call);
}

int MPI_File_read_all_begin(MPI_File fh, void *buf, int count, MPI_Datatype datatype) {
    NOTE_CALLER();
    static const char call[] = "MPI_File_read_all_begin";
    check_running(call);
    return unsupported_of_file(call);
}

int MPI_File_read_all_end(MPI_File fh, void *buf, MPI_Status *status) {
    NOTE_CALLER();
    static const char call[] = "MPI_File_read_all_end";
    check_running(call);
    return unsupported_of_file(call);
}

int MPI_File_read_at(MPI_File fh, MPI_Offset offset, void *buf, int count, MPI_Datatype datatype,
    MPI_Status *status) {
    NOTE_CALLER();
    static const char call[] = "MPI_File_read_at";
    check_running(call);
    return unsupported_of_file(call);
}

int MPI_File_read_at_all(MPI_File fh, MPI_Offset offset, void *buf, int count, MPI_Datatype datatype,
    MPI_Status *status) {
    NOTE_CALLER();
    static const char call[] = "MPI_File_read_at_all";
    check_running(call);
    return unsupported_of_file(call);
}

int MPI_File_read_at_all_begin(MPI_File fh, MPI_Offset offset, void *buf, int count, MPI_Datatype datatype) {
    NOTE_CALLER();
    static const char call[] = "MPI_File_read_at_all_begin";
    check_running(call);
    return unsupported_of_file(call);
}

int MPI_File_read_at_all_end(MPI_File fh, void *buf, MPI_Status *status) {
    NOTE_CALLER();
    static const char call[] = "MPI_File_read_at_all_end";
    check_running(call);
    return unsupported_of_file(call);
}

int MPI_File_read_ordered(MPI_File fh, void *buf, int count, MPI_Datatype datatype, MPI_Status *status) {
    NOTE_CALLER();
    static const char call[] = "MPI_File_read_ordered";
    check_running(call);
    return unsupported_of_file(call);
}

int MPI_File_read_ordered_begin(MPI_File fh, void *buf, int count, MPI_Datatype datatype) {
    NOTE_CALLER();
    static const char call[] = "MPI_File_read_ordered_begin";
    check_running(call);
    return unsupported_of_file(call);
}

int MPI_File_read_ordered_end(MPI_File fh, void *buf, MPI_Status *status) {
    NOTE_CALLER();
    static const char call[] = "MPI_File_read_ordered_end";
    check_running(call);
    return unsupported_of_file(call);
}

int MPI_File_read_shared(MPI_File fh, void *buf, int count, MPI_Datatype datatype, MPI_Status *status) {
    NOTE_CALLER();
    static const char call[] = "MPI_File_read_shared";
    check_running(call);
    return unsupported_of_file(call);
}

int MPI_File_seek(MPI_File fh, MPI_Offset offset, int whence) {
    NOTE_CALLER();
    static const char call[] = "MPI_File_seek";
    check_running(call);
    return unsupported_of_file(call);
}

int MPI_File_seek_shared(MPI_File fh, MPI_Offset offset, int whence) {
    NOTE_CALLER();
    static const char call[] = "MPI_File_seek_shared";
    check_running(call);
    return unsupported_of_file(call);
}

int MPI_File_set_atomicity(MPI_File fh, int flag) {
    NOTE_CALLER();
    static const char call[] = "MPI_File_set_atomicity";
    check_running(call);
    return unsupported_of_file(call);
}

int MPI_File_set_info(MPI_File fh, MPI_Info info) {
    NOTE_CALLER();
    static const char call[] = "MPI_File_set_info";
    check_running(call);
    return unsupported_of_file(call);
}

int MPI_File_set_size(MPI_File fh, MPI_Offset size) {
    NOTE_CALLER();
    static const char call[] = "MPI_File_set_size";
    check_running(call);
    return unsupported_of_file(call);
}

int MPI_File_set_view(MPI_File fh, MPI_Offset disp, MPI_Datatype etype, MPI_Datatype filetype, const char *datarep,
    MPI_Info info) {
    NOTE_CALLER();
    static const char call[] = "MPI_File_set_view";
    check_running(call);
    return unsupported_of_file(call);
}

int MPI_File_sync(MPI_File fh) {
    NOTE_CALLER();
    static const char call[] = "MPI_File_sync";
    check_running(call);
    return unsupported_of_file(call);
}

int MPI_File_write(MPI_File fh, const void *buf, int count, MPI_Datatype datatype, MPI_Status *status) {
    NOTE_CALLER();
    static const char call[] = "MPI_File_write";
    check_running(call);
    return unsupported_of_file(call);
}

int MPI_File_write_all(MPI_File fh, const void *buf, int count, MPI_Datatype datatype, MPI_Status *status) {
    NOTE_CALLER();
    static const char call[] = "MPI_File_write_all";
    check_running(call);
    return unsupported_of_file(call);
}

int MPI_File_write_all_begin(MPI_File fh, const void *buf, int count, MPI_Datatype datatype) {
    NOTE_CALLER();
    static const char call[] = "MPI_File_write_all_begin";
    check_running(call);
    return unsupported_of_file(call);
}

int MPI_File_write_all_end(MPI_File fh, const void *buf, MPI_Status *status) {
    NOTE_CALLER();
    static const char call[] = "MPI_File_write_all_end";
    check_running(call);
    return unsupported_of_file(call);
}

int MPI_File_write_at(MPI_File fh, MPI_Offset offset, const void *buf, int count, MPI_Datatype datatype,
    MPI_Status *status) {
    NOTE_CALLER();
    static const char call[] = "MPI_File_write_at";
    check_running(call);
    return unsupported_of_file(call);
}

int MPI_File_write_at_all(MPI_File fh, MPI_Offset offset, const void *buf, int count, MPI_Datatype datatype,
    MPI_Status *status) {
    NOTE_CALLER();
    static const char call[] = "MPI_File_write_at_all";
    check_running(call);
    return unsupported_of_file(call);
}

int MPI_File_write_at_all_begin(MPI_File fh, MPI_Offset offset, const void *buf, int count, MPI_Datatype datatype) {
    NOTE_CALLER();
    static const char call[] = "MPI_File_write_at_all_begin";
    check_running(call);
    return unsupported_of_file(call);
}

int MPI_File_write_at_all_end(MPI_File fh, const void *buf, MPI_Status *status) {
    NOTE_CALLER();
    static const char call[] = "MPI_File_write_at_all_end";
    check_running(call);
    return unsupported_of_file(call);
}

int MPI_File_write_ordered(MPI_File fh, const void *buf, int count, MPI_Datatype datatype, MPI_Status *status) {
    NOTE_CALLER();
    static const char call[] = "MPI_File_write_ordered";
    check_running(call);
    return unsupported_of_file(call);
}

int MPI_File_write_ordered_begin(MPI_File fh, const void *buf, int count, MPI_Datatype datatype) {
    NOTE_CALLER();
    static const char call[] = "MPI_File_write_ordered_begin";
    check_running(call);
    return unsupported_of_file(call);
}

int MPI_File_write_ordered_end(MPI_File fh, const void *buf, MPI_Status *status) {
    NOTE_CALLER();
    static const char call[] = "MPI_File_write_ordered_end";
    check_running(call);
    return unsupported_of_file(call);
}

int MPI_File_write_shared(MPI_File fh, const void *buf, int count, MPI_Datatype datatype, MPI_Status *status) {
    NOTE_CALLER();
    static const char call[] = "MPI_File_write_shared";
    check_running(call);
    return unsupported_of_file(call);
}

int MPI_Register_datarep(const char *datarep, MPI_Datarep_conversion_function *read_conversion_fn,
    MPI_Datarep_conversion_function *write_conversion_fn, MPI_Datarep_extent_function *dtype_file_extent_fn,
    void *extra_state) {
    NOTE_CALLER();
    static const char call[] = "MPI_Register_datarep";
    check_running(call);
    return unsupported_of_file(call);
}
