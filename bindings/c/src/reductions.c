/* Reductions (MPI 3.1, 5.9): by the engine, but of long doubles, which C folds in the order of the ranks, and those
 * that the engine doesn't know, which go by plans. */
#include "errors.h"
#include "explored.h"
#include "intercollectives.h"
#include "internal.h"
#include "own_operations.h"
#include "prefixes.h"
#include "rows.h"

/* What a reduction was given, once it is checked. */
struct reduction {
    struct communicator *comm;
    struct datatype *type;
    enum engine_operation operation;
    size_t length; /* bytes of a member's row */
};

/* Checks what all members give. */
static int check_reduction(MPI_Comm comm, const char *call, int count, MPI_Datatype datatype, MPI_Op op,
                           struct reduction *found) {
    check_running(call);
    int class = check_comm(comm, call, &found->comm);
    if (class == MPI_SUCCESS) class = check_count(comm, call, count);
    if (class == MPI_SUCCESS) class = check_type(comm, call, datatype, &found->type);
    if (class != MPI_SUCCESS) return class;
    struct operation *operation;
    class = check_operation(comm, call, op, found->type, &operation);
    if (class != MPI_SUCCESS) return class;
    found->operation = (enum engine_operation)operation->number;
    found->length = data_size(&found->type->layout, (size_t)count);
    return MPI_SUCCESS;
}

/* Checks the buffers of a member that gets a result, and answers in `row` where its own elements are. */
static int check_buffers(MPI_Comm comm, const char *call, const void *sendbuf, void *recvbuf, int count,
                         const struct datatype *type, const void **row) {
    int class = check_buffer(comm, call, recvbuf, count, type);
    if (class == MPI_SUCCESS && sendbuf != MPI_IN_PLACE) class = check_buffer(comm, call, sendbuf, count, type);
    if (class != MPI_SUCCESS) return class;
    if (recvbuf == MPI_IN_PLACE) return raise_on(comm, call, MPI_ERR_BUFFER, "recvbuf is MPI_IN_PLACE");
    if (sendbuf == recvbuf && count > 0)
        return raise_on(comm, call, MPI_ERR_BUFFER, "sendbuf is recvbuf: sendbuf has to be MPI_IN_PLACE then");
    *row = sendbuf == MPI_IN_PLACE ? recvbuf : sendbuf;
    return MPI_SUCCESS;
}

/* A reduction's elements are of one type at all members, also where there are none. */
static struct collective rows_of(struct reduction of, int root) {
    return (struct collective){of.comm, root, of.type->basic, of.type->unit};
}

/* Whether the engine doesn't know numbers of this type. */
static bool is_folded_here(const struct datatype *type) {
    return type->family == FAMILY_FLOATING && type->basic == ENGINE_BYTE;
}

int MPI_Reduce(const void *sendbuf, void *recvbuf, int count, MPI_Datatype datatype, MPI_Op op, int root,
               MPI_Comm comm) {
    NOTE_CALLER();
    const char *call = "MPI_Reduce";
    if (is_of_inter(comm) || is_for_plans(op, datatype) || leaves_early)
        return reduce_by_plan(sendbuf, recvbuf, count, datatype, op, root, comm);
    struct reduction of;
    const void *row = sendbuf;
    int class = check_reduction(comm, call, count, datatype, op, &of);
    if (class == MPI_SUCCESS) class = check_root(comm, call, of.comm, root);
    if (class != MPI_SUCCESS) return class;
    if (of.comm->rank == root) {
        class = check_buffers(comm, call, sendbuf, recvbuf, count, of.type, &row);
    } else {
        if (sendbuf == MPI_IN_PLACE) class = raise_on(comm, call, MPI_ERR_BUFFER, "MPI_IN_PLACE is the root's alone");
        else class = check_buffer(comm, call, sendbuf, count, of.type);
    }
    if (class != MPI_SUCCESS) return class;
    uint32_t number = is_folded_here(of.type) ? fold_rows(rows_of(of, root), of.operation, row, of.length, recvbuf)
                                              : reduce_rows(rows_of(of, root), of.operation, row, of.length, recvbuf);
    return number == 0 ? MPI_SUCCESS : raise_number(comm, call, number);
}

int MPI_Allreduce(const void *sendbuf, void *recvbuf, int count, MPI_Datatype datatype, MPI_Op op, MPI_Comm comm) {
    NOTE_CALLER();
    const char *call = "MPI_Allreduce";
    if (is_of_inter(comm) || is_for_plans(op, datatype))
        return allreduce_by_plan(sendbuf, recvbuf, count, datatype, op, comm);
    struct reduction of;
    const void *row;
    int class = check_reduction(comm, call, count, datatype, op, &of);
    if (class == MPI_SUCCESS) class = check_buffers(comm, call, sendbuf, recvbuf, count, of.type, &row);
    if (class != MPI_SUCCESS) return class;
    uint32_t number = is_folded_here(of.type) ? fold_rows_for_all(rows_of(of, 0), of.operation, row, of.length, recvbuf)
                                              : allreduce_rows(rows_of(of, 0), of.operation, row, of.length, recvbuf);
    return number == 0 ? MPI_SUCCESS : raise_number(comm, call, number);
}
