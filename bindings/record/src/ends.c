/* The beginning and the end of a record: see record.h. */
#include "record.h"

#include <stdlib.h>

static void begin_record(int thread_level) {
    const char *folder = getenv("KOMBAZILY_RECORD");
    char version[MPI_MAX_LIBRARY_VERSION_STRING];
    int rank, size, length;
    if (folder == NULL) return;
    PMPI_Comm_rank(MPI_COMM_WORLD, &rank);
    PMPI_Comm_size(MPI_COMM_WORLD, &size);
    open_communicators();
    open_choices(rank);
    if (!open_record(folder, rank)) return;
    PMPI_Get_library_version(version, &length);
    for (int i = 0; i < length; i++)
        if (version[i] == '\n') version[i] = '\0';
    write_line("kombazily-record 1 %d %d %s", rank, size, version);
    if (thread_level == MPI_THREAD_MULTIPLE) write_line("threads");
}

int MPI_Init(int *count, char ***words) {
    (void)begin_look();
    int code = PMPI_Init(count, words);
    if (code == MPI_SUCCESS) begin_record(MPI_THREAD_SINGLE);
    return end_look(code);
}

int MPI_Init_thread(int *count, char ***words, int wanted, int *given) {
    (void)begin_look();
    int code = PMPI_Init_thread(count, words, wanted, given);
    if (code == MPI_SUCCESS) begin_record(*given);
    return end_look(code);
}

/* What ends the record. It is written on until the file is closed. */
static void end_record(const char *how) {
    write_line("end %s", how);
    close_record();
}

int MPI_Finalize(void) {
    bool is_own = begin_call("MPI_Finalize");
    if (is_own) end_record("finalize");
    return end_look(PMPI_Finalize());
}

int MPI_Abort(MPI_Comm comm, int status) {
    bool is_own = begin_call("MPI_Abort");
    if (is_own) {
        write_line("abort %d", status);
        end_record("abort");
    }
    return end_look(PMPI_Abort(comm, status));
}

/* The buffers of the program aren't the record's. */
int MPI_Buffer_detach(void *buffer, int *size) {
    bool is_own = begin_call("MPI_Buffer_detach");
    if (is_own) write_line("detach");
    return end_call(is_own, PMPI_Buffer_detach(buffer, size));
}

__attribute__((destructor)) static void end_of_process(void) {
    if (is_recording) end_record("exit");
}
