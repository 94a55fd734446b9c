/* What isn't supported, and is linked: see unsupported.h. There are no windows and no files, so their only handles are
 * the null ones. */
#include "unsupported.h"

#include "explored.h"
#include "lines.h"

/* The handler of files that aren't open. */
static MPI_Errhandler of_files = MPI_ERRORS_RETURN;

int unsupported(MPI_Comm comm, const char *call, const char *cause) {
    explored_refuse(call, cause);
    return raise_on(comm, call, MPI_ERR_UNSUPPORTED_OPERATION, "%s", cause);
}

/* Tells the handler of files. */
static int raise_of_file(const char *call, int class, const char *cause) {
    if (of_files == MPI_ERRORS_RETURN) return class;
    write_error(call, cause);
    end_job(class);
}

int unsupported_of_file(const char *call) {
    static const char cause[] = "files aren't supported";
    explored_refuse(call, cause);
    return raise_of_file(call, MPI_ERR_UNSUPPORTED_OPERATION, cause);
}

static int check_file(const char *call, MPI_File file) {
    check_running(call);
    return file == MPI_FILE_NULL ? MPI_SUCCESS : raise_of_file(call, MPI_ERR_FILE, "no such file");
}

int MPI_File_set_errhandler(MPI_File file, MPI_Errhandler errhandler) {
    NOTE_CALLER();
    static const char call[] = "MPI_File_set_errhandler";
    int class = check_file(call, file);
    if (class != MPI_SUCCESS) return class;
    if (errhandler != MPI_ERRORS_RETURN && errhandler != MPI_ERRORS_ARE_FATAL)
        return raise_of_file(call, MPI_ERR_ARG, "no such error handler");
    of_files = errhandler;
    return MPI_SUCCESS;
}

int MPI_File_get_errhandler(MPI_File file, MPI_Errhandler *errhandler) {
    NOTE_CALLER();
    static const char call[] = "MPI_File_get_errhandler";
    int class = check_file(call, file);
    if (class == MPI_SUCCESS && errhandler == NULL) class = raise_of_file(call, MPI_ERR_ARG, "errhandler is NULL");
    if (class == MPI_SUCCESS) *errhandler = of_files;
    return class;
}

int MPI_Comm_get_parent(MPI_Comm *parent) {
    NOTE_CALLER();
    static const char call[] = "MPI_Comm_get_parent";
    check_running(call);
    int class = check_result(MPI_COMM_WORLD, call, parent, "parent");
    if (class == MPI_SUCCESS) *parent = MPI_COMM_NULL;
    return class;
}

MPI_Fint MPI_Win_c2f(MPI_Win win) { return (MPI_Fint)(intptr_t)win; }
MPI_Win MPI_Win_f2c(MPI_Fint win) { return (MPI_Win)(intptr_t)win; }
MPI_Fint MPI_File_c2f(MPI_File file) { return (MPI_Fint)(intptr_t)file; }
MPI_File MPI_File_f2c(MPI_Fint file) { return (MPI_File)(intptr_t)file; }
