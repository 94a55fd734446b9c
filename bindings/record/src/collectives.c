/* Collectives, those that wait and those that don't: see record.h. */
#include "record.h"

#include <stdio.h>

/* One side of a collective: so many elements, or as many as a row says for each rank. */
struct block {
    enum { IS_NONE, IS_IN_PLACE, IS_COUNT, IS_ROW } kind;
    int count;
    const int *row;
    MPI_Datatype type;
};
struct collective {
    const char *kind;
    int root; /* or -1 */
    MPI_Op op;
    struct block send, receive;
};

static const struct block no_block = {IS_NONE, 0, NULL, MPI_DATATYPE_NULL};
static struct block block_of(const void *buffer, int count, MPI_Datatype type) {
    return (struct block){buffer == MPI_IN_PLACE ? IS_IN_PLACE : IS_COUNT, count, NULL, type};
}
static struct block row_of(const void *buffer, const int *row, MPI_Datatype type) {
    return (struct block){buffer == MPI_IN_PLACE ? IS_IN_PLACE : IS_ROW, 0, row, type};
}
static bool is_at(MPI_Comm comm, int root) {
    int rank = -1;
    PMPI_Comm_rank(comm, &rank);
    return rank == root;
}

static const char *operation_word(MPI_Op op) {
    static const struct {
        const char *name;
        MPI_Op op;
    } known[] = {{"MPI_MAX", MPI_MAX},   {"MPI_MIN", MPI_MIN},       {"MPI_SUM", MPI_SUM},
                 {"MPI_PROD", MPI_PROD}, {"MPI_LAND", MPI_LAND},     {"MPI_BAND", MPI_BAND},
                 {"MPI_LOR", MPI_LOR},   {"MPI_BOR", MPI_BOR},       {"MPI_LXOR", MPI_LXOR},
                 {"MPI_BXOR", MPI_BXOR}, {"MPI_MAXLOC", MPI_MAXLOC}, {"MPI_MINLOC", MPI_MINLOC}};
    int commutes = 0;
    if (op == MPI_OP_NULL) return "-";
    for (size_t i = 0; i < sizeof known / sizeof *known; i++)
        if (known[i].op == op) return known[i].name;
    PMPI_Op_commutative(op, &commutes);
    return commutes ? "commutative" : "ordered";
}

/* Its types stand in the record before it. */
static void number_types(const struct block *it) {
    if (it->kind == IS_COUNT || it->kind == IS_ROW) type_number(it->type);
}

static void put_block(const struct block *it, int size) {
    if (it->kind == IS_NONE) put(" - 0");
    if (it->kind == IS_IN_PLACE) put(" = 0");
    if (it->kind == IS_COUNT) put(" %d %d", it->count, type_number(it->type));
    if (it->kind != IS_ROW) return;
    for (int i = 0; i < size; i++) put(i == 0 ? " %d," : "%d,", it->row[i]);
    put(" %d", type_number(it->type));
}

/* Writes what a rank enters: whether it is in the record. Name 0: it waits. */
static bool write_collective(long name, MPI_Comm comm, const struct collective *it) {
    const int number = communicator_number(comm);
    int size = 0;
    if (number < 0) return false;
    PMPI_Comm_size(comm, &size);
    number_types(&it->send);
    number_types(&it->receive);
    if (name != 0) put("icoll %ld", name);
    else put("coll");
    put(" %s %d %d %s", it->kind, number, it->root, operation_word(it->op));
    put_block(&it->send, size);
    put_block(&it->receive, size);
    end_line();
    return true;
}

/* A collective of both forms: its parameters, its arguments, and what it is. */
#define LIST(...) __VA_ARGS__
#define COLLECTIVE(NAME, INAME, PARAMETERS, ARGUMENTS, ...)                                                            \
    int MPI_##NAME(PARAMETERS) {                                                                                       \
        bool is_own = begin_call("MPI_" #NAME);                                                                        \
        if (is_own) write_collective(0, comm, &(struct collective){__VA_ARGS__});                                      \
        return end_call(is_own, PMPI_##NAME(ARGUMENTS));                                                               \
    }                                                                                                                  \
    int MPI_##INAME(PARAMETERS, MPI_Request *request) {                                                                \
        bool is_own = begin_call("MPI_" #INAME);                                                                       \
        const long name = is_own ? new_name() : 0;                                                                     \
        bool is_written = is_own && write_collective(name, comm, &(struct collective){__VA_ARGS__});                   \
        int code = PMPI_##INAME(ARGUMENTS, request);                                                                   \
        if (is_written && code == MPI_SUCCESS) add_request(*request, OF_COLLECTIVE, name);                             \
        return end_call(is_own, code);                                                                                 \
    }

COLLECTIVE(Barrier, Ibarrier, LIST(MPI_Comm comm), LIST(comm), "barrier", -1, MPI_OP_NULL, no_block, no_block)
COLLECTIVE(Bcast, Ibcast, LIST(void *buffer, int count, MPI_Datatype type, int root, MPI_Comm comm),
           LIST(buffer, count, type, root, comm), "bcast", root, MPI_OP_NULL, block_of(buffer, count, type), no_block)

#define BOTH const void *from, int count, MPI_Datatype type, void *into, int into_count, MPI_Datatype into_type
#define BOTH_OF from, count, type, into, into_count, into_type
COLLECTIVE(Gather, Igather, LIST(BOTH, int root, MPI_Comm comm), LIST(BOTH_OF, root, comm), "gather", root, MPI_OP_NULL,
           block_of(from, count, type), is_at(comm, root) ? block_of(into, into_count, into_type) : no_block)
COLLECTIVE(Scatter, Iscatter, LIST(BOTH, int root, MPI_Comm comm), LIST(BOTH_OF, root, comm), "scatter", root,
           MPI_OP_NULL, is_at(comm, root) ? block_of(from, count, type) : no_block,
           block_of(into, into_count, into_type))
COLLECTIVE(Allgather, Iallgather, LIST(BOTH, MPI_Comm comm), LIST(BOTH_OF, comm), "allgather", -1, MPI_OP_NULL,
           block_of(from, count, type), block_of(into, into_count, into_type))
COLLECTIVE(Alltoall, Ialltoall, LIST(BOTH, MPI_Comm comm), LIST(BOTH_OF, comm), "alltoall", -1, MPI_OP_NULL,
           block_of(from, count, type), block_of(into, into_count, into_type))

#define TO_ROW                                                                                                         \
    const void *from, int count, MPI_Datatype type, void *into, const int *into_counts, const int *places,             \
        MPI_Datatype into_type
#define TO_ROW_OF from, count, type, into, into_counts, places, into_type
COLLECTIVE(Gatherv, Igatherv, LIST(TO_ROW, int root, MPI_Comm comm), LIST(TO_ROW_OF, root, comm), "gatherv", root,
           MPI_OP_NULL, block_of(from, count, type),
           is_at(comm, root) ? row_of(into, into_counts, into_type) : no_block)
COLLECTIVE(Allgatherv, Iallgatherv, LIST(TO_ROW, MPI_Comm comm), LIST(TO_ROW_OF, comm), "allgatherv", -1, MPI_OP_NULL,
           block_of(from, count, type), row_of(into, into_counts, into_type))
#define OF_ROW                                                                                                         \
    const void *from, const int *counts, const int *places, MPI_Datatype type, void *into, int into_count,             \
        MPI_Datatype into_type
#define OF_ROW_OF from, counts, places, type, into, into_count, into_type
COLLECTIVE(Scatterv, Iscatterv, LIST(OF_ROW, int root, MPI_Comm comm), LIST(OF_ROW_OF, root, comm), "scatterv", root,
           MPI_OP_NULL, is_at(comm, root) ? row_of(from, counts, type) : no_block,
           block_of(into, into_count, into_type))
#define ROWS                                                                                                           \
    const void *from, const int *counts, const int *places, MPI_Datatype type, void *into, const int *into_counts,     \
        const int *into_places, MPI_Datatype into_type
#define ROWS_OF from, counts, places, type, into, into_counts, into_places, into_type
COLLECTIVE(Alltoallv, Ialltoallv, LIST(ROWS, MPI_Comm comm), LIST(ROWS_OF, comm), "alltoallv", -1, MPI_OP_NULL,
           row_of(from, counts, type), row_of(into, into_counts, into_type))

#define REDUCED const void *from, void *into, int count, MPI_Datatype type, MPI_Op op
#define REDUCED_OF from, into, count, type, op
COLLECTIVE(Reduce, Ireduce, LIST(REDUCED, int root, MPI_Comm comm), LIST(REDUCED_OF, root, comm), "reduce", root, op,
           block_of(from, count, type), block_of(into, count, type))
COLLECTIVE(Allreduce, Iallreduce, LIST(REDUCED, MPI_Comm comm), LIST(REDUCED_OF, comm), "allreduce", -1, op,
           block_of(from, count, type), block_of(into, count, type))
COLLECTIVE(Scan, Iscan, LIST(REDUCED, MPI_Comm comm), LIST(REDUCED_OF, comm), "scan", -1, op,
           block_of(from, count, type), block_of(into, count, type))
COLLECTIVE(Exscan, Iexscan, LIST(REDUCED, MPI_Comm comm), LIST(REDUCED_OF, comm), "exscan", -1, op,
           block_of(from, count, type), block_of(into, count, type))
COLLECTIVE(Reduce_scatter_block, Ireduce_scatter_block, LIST(REDUCED, MPI_Comm comm), LIST(REDUCED_OF, comm),
           "reduce_scatter_block", -1, op, block_of(from, count, type), block_of(into, count, type))
#define REDUCED_ROW const void *from, void *into, const int *counts, MPI_Datatype type, MPI_Op op
#define REDUCED_ROW_OF from, into, counts, type, op
COLLECTIVE(Reduce_scatter, Ireduce_scatter, LIST(REDUCED_ROW, MPI_Comm comm), LIST(REDUCED_ROW_OF, comm),
           "reduce_scatter", -1, op, row_of(from, counts, type), row_of(into, counts, type))

/* ---- what isn't in a record, though it is collective ---- */

#define LACKS(NAME, PARAMETERS, ARGUMENTS)                                                                             \
    int MPI_##NAME(PARAMETERS) {                                                                                       \
        bool is_own = begin_call("MPI_" #NAME);                                                                        \
        if (is_own) write_lack("MPI_" #NAME);                                                                          \
        return end_call(is_own, PMPI_##NAME(ARGUMENTS));                                                               \
    }
#define EACH_TYPE                                                                                                      \
    const void *from, const int *counts, const int *places, const MPI_Datatype *types, void *into,                     \
        const int *into_counts, const int *into_places, const MPI_Datatype *into_types
#define EACH_TYPE_OF from, counts, places, types, into, into_counts, into_places, into_types
LACKS(Alltoallw, LIST(EACH_TYPE, MPI_Comm comm), LIST(EACH_TYPE_OF, comm))
LACKS(Ialltoallw, LIST(EACH_TYPE, MPI_Comm comm, MPI_Request *request), LIST(EACH_TYPE_OF, comm, request))
LACKS(Neighbor_allgather, LIST(BOTH, MPI_Comm comm), LIST(BOTH_OF, comm))
LACKS(Neighbor_alltoall, LIST(BOTH, MPI_Comm comm), LIST(BOTH_OF, comm))
LACKS(Neighbor_allgatherv, LIST(TO_ROW, MPI_Comm comm), LIST(TO_ROW_OF, comm))
LACKS(Neighbor_alltoallv, LIST(ROWS, MPI_Comm comm), LIST(ROWS_OF, comm))
LACKS(Intercomm_create, LIST(MPI_Comm comm, int leader, MPI_Comm peer, int remote_leader, int tag, MPI_Comm *made),
      LIST(comm, leader, peer, remote_leader, tag, made))
LACKS(Win_create, LIST(void *base, MPI_Aint size, int unit, MPI_Info info, MPI_Comm comm, MPI_Win *made),
      LIST(base, size, unit, info, comm, made))
LACKS(Win_allocate, LIST(MPI_Aint size, int unit, MPI_Info info, MPI_Comm comm, void *base, MPI_Win *made),
      LIST(size, unit, info, comm, base, made))
LACKS(Win_allocate_shared, LIST(MPI_Aint size, int unit, MPI_Info info, MPI_Comm comm, void *base, MPI_Win *made),
      LIST(size, unit, info, comm, base, made))
LACKS(Win_create_dynamic, LIST(MPI_Info info, MPI_Comm comm, MPI_Win *made), LIST(info, comm, made))
LACKS(File_open, LIST(MPI_Comm comm, const char *name, int mode, MPI_Info info, MPI_File *made),
      LIST(comm, name, mode, info, made))
LACKS(Comm_spawn,
      LIST(const char *command, char *words[], int count, MPI_Info info, int root, MPI_Comm comm, MPI_Comm *made,
           int errors[]),
      LIST(command, words, count, info, root, comm, made, errors))
