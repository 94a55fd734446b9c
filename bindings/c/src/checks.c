/* Checks of what calls are given: see errors.h. */
#include "errors.h"
#include "intercommunicators.h"
#include "internal.h"
#include "lines.h"

#include <stdio.h>

/* Before MPI_Init a rank is known where the environment tells it. */
static _Noreturn void end_before_init(const char *call) {
    const int rank = rank_in_environment();
    char whose[24] = "";
    if (rank >= 0) snprintf(whose, sizeof whose, "rank %d: ", rank);
    fprintf(stderr, "%s%s: called before MPI_Init\n", whose, call);
    end_job(MPI_ERR_OTHER);
}

void check_running(const char *call) {
    process.call = call;
    if (process.phase == RUNNING) return;
    fflush(stdout);
    if (process.phase == BEFORE_INIT) end_before_init(call);
    write_error(call, "called after MPI_Finalize");
    end_job(MPI_ERR_OTHER);
}

int check_comm(MPI_Comm comm, const char *call, struct communicator **found) {
    *found = communicator_of(comm);
    if (*found != NULL && (*found)->world != NULL) return MPI_SUCCESS;
    if (*found != NULL) return raise_on(MPI_COMM_WORLD, call, MPI_ERR_COMM, "a copy whose request isn't at its end");
    if (comm == MPI_COMM_NULL) return raise_on(MPI_COMM_WORLD, call, MPI_ERR_COMM, "the communicator is MPI_COMM_NULL");
    return raise_on(MPI_COMM_WORLD, call, MPI_ERR_COMM, "no such communicator");
}

int check_count(MPI_Comm comm, const char *call, int count) {
    return count >= 0 ? MPI_SUCCESS : raise_on(comm, call, MPI_ERR_COUNT, "a count of %d", count);
}

int check_type(MPI_Comm comm, const char *call, MPI_Datatype type, struct datatype **found) {
    *found = datatype_of(type);
    if (type == MPI_DATATYPE_NULL) return raise_on(comm, call, MPI_ERR_TYPE, "the type is MPI_DATATYPE_NULL");
    if (*found == NULL) return raise_on(comm, call, MPI_ERR_TYPE, "no such type");
    return (*found)->is_committed ? MPI_SUCCESS : raise_on(comm, call, MPI_ERR_TYPE, "the type isn't committed");
}

int check_buffer(MPI_Comm comm, const char *call, const void *buf, int count, const struct datatype *type) {
    if ((buf != NULL && buf != MPI_IN_PLACE) || count == 0 || type->layout.numbers.size == 0) return MPI_SUCCESS;
    if (buf == MPI_IN_PLACE) return raise_on(comm, call, MPI_ERR_BUFFER, "MPI_IN_PLACE can't stand here");
    /* MPI_BOTTOM is NULL: a type may have addresses for its displacements (4.1.5). The first page is no process's. */
    if (type->layout.numbers.true_lower >= 4096) return MPI_SUCCESS;
    return raise_on(comm, call, MPI_ERR_BUFFER, "the buffer of %d items is NULL", count);
}

/* Tells of a rank that the communicator hasn't. */
static int no_such_rank(MPI_Comm comm, const char *call, const struct communicator *in, int class, int rank) {
    const char *what = class == MPI_ERR_ROOT ? "root" : "rank";
    if (is_inter(in)) return raise_on(comm, call, class, "%s %d of a remote group of %d", what, rank, peers_of(in));
    return raise_on(comm, call, class, "%s %d of a communicator of %d", what, rank, in->size);
}

int check_target(MPI_Comm comm, const char *call, const struct communicator *in, int rank) {
    if (rank == MPI_PROC_NULL || (rank >= 0 && rank < peers_of(in))) return MPI_SUCCESS;
    if (rank == MPI_ANY_SOURCE) return raise_on(comm, call, MPI_ERR_RANK, "the destination is MPI_ANY_SOURCE");
    return no_such_rank(comm, call, in, MPI_ERR_RANK, rank);
}

int check_source(MPI_Comm comm, const char *call, const struct communicator *in, int rank) {
    if (rank == MPI_ANY_SOURCE) return MPI_SUCCESS;
    return check_target(comm, call, in, rank);
}

int check_root(MPI_Comm comm, const char *call, const struct communicator *in, int rank) {
    if (rank >= 0 && rank < peers_of(in)) return MPI_SUCCESS;
    if (is_inter(in) && (rank == MPI_ROOT || rank == MPI_PROC_NULL)) return MPI_SUCCESS;
    return no_such_rank(comm, call, in, MPI_ERR_ROOT, rank);
}

int check_tag(MPI_Comm comm, const char *call, int tag) {
    if (tag >= 0) return MPI_SUCCESS;
    if (tag == MPI_ANY_TAG) return raise_on(comm, call, MPI_ERR_TAG, "the tag of a send is MPI_ANY_TAG");
    return raise_on(comm, call, MPI_ERR_TAG, "tag %d", tag);
}

int check_receive_tag(MPI_Comm comm, const char *call, int tag) {
    return tag == MPI_ANY_TAG ? MPI_SUCCESS : check_tag(comm, call, tag);
}

int check_result(MPI_Comm comm, const char *call, const void *result, const char *name) {
    return result != NULL ? MPI_SUCCESS : raise_on(comm, call, MPI_ERR_ARG, "%s is NULL", name);
}

int check_function(const char *call, bool is_there) {
    return is_there ? MPI_SUCCESS : raise_on(MPI_COMM_WORLD, call, MPI_ERR_ARG, "the function is NULL");
}
