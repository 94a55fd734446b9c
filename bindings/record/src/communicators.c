/* Communicators, by numbers of this rank: see record.h. */
#include "record.h"

#include <stdlib.h>

enum { WORLD, SELF };

static struct numbered {
    MPI_Comm comm;
    int number;
} * communicators;
static int communicator_count, communicator_room, numbers;

static void add(MPI_Comm comm, int number) {
    if (communicator_count == communicator_room) {
        communicator_room = 2 * communicator_room + 16;
        communicators = realloc(communicators, (size_t)communicator_room * sizeof *communicators);
        if (communicators == NULL) abort();
    }
    communicators[communicator_count++] = (struct numbered){comm, number};
}

void open_communicators(void) {
    add(MPI_COMM_WORLD, WORLD);
    add(MPI_COMM_SELF, SELF);
    numbers = SELF;
}

int communicator_number(MPI_Comm comm) {
    for (int i = communicator_count; i-- > 0;)
        if (communicators[i].comm == comm) return communicators[i].number;
    write_lack(comm == MPI_COMM_NULL ? "a call on MPI_COMM_NULL" : "a call on a communicator that is not recorded");
    return -1;
}

/* ---- communicators that all members of another one make ---- */

#define DUP(NAME, PARAMETERS, ARGUMENTS)                                                                               \
    int MPI_##NAME PARAMETERS {                                                                                        \
        bool is_own = begin_call("MPI_" #NAME);                                                                        \
        const int old = is_own ? communicator_number(comm) : -1;                                                       \
        const int number = old >= 0 ? ++numbers : -1;                                                                  \
        if (old >= 0) write_line("dup %d %d", number, old);                                                            \
        int code = PMPI_##NAME ARGUMENTS;                                                                              \
        if (old >= 0 && code == MPI_SUCCESS) add(*made, number);                                                       \
        return end_call(is_own, code);                                                                                 \
    }
DUP(Comm_dup, (MPI_Comm comm, MPI_Comm *made), (comm, made))
DUP(Comm_dup_with_info, (MPI_Comm comm, MPI_Info info, MPI_Comm *made), (comm, info, made))

int MPI_Comm_idup(MPI_Comm comm, MPI_Comm *made, MPI_Request *request) {
    bool is_own = begin_call("MPI_Comm_idup");
    const int old = is_own ? communicator_number(comm) : -1;
    const int number = old >= 0 ? ++numbers : -1;
    const long name = old >= 0 ? new_name() : 0;
    if (old >= 0) write_line("idup %ld %d %d", name, number, old);
    int code = PMPI_Comm_idup(comm, made, request);
    if (old >= 0 && code == MPI_SUCCESS) {
        add(*made, number);
        add_request(*request, OF_COLLECTIVE, name);
    }
    return end_call(is_own, code);
}

int MPI_Comm_split(MPI_Comm comm, int colour, int key, MPI_Comm *made) {
    bool is_own = begin_call("MPI_Comm_split");
    const int old = is_own ? communicator_number(comm) : -1;
    const int number = old >= 0 ? ++numbers : -1;
    if (old >= 0 && colour == MPI_UNDEFINED) write_line("split %d %d none %d", number, old, key);
    else if (old >= 0) write_line("split %d %d %d %d", number, old, colour, key);
    int code = PMPI_Comm_split(comm, colour, key, made);
    if (old >= 0 && code == MPI_SUCCESS && *made != MPI_COMM_NULL) add(*made, number);
    return end_call(is_own, code);
}

/* What came out of such a call, as a split of the other one: its colour is the first member's rank there. */
static void write_made(MPI_Comm comm, MPI_Comm made) {
    const int old = communicator_number(comm);
    if (old < 0) return;
    if (made == MPI_COMM_NULL) {
        write_line("split %d %d none 0", ++numbers, old);
        return;
    }
    MPI_Group own, other;
    int zero = 0, first = 0, rank = 0;
    PMPI_Comm_group(made, &own);
    PMPI_Comm_group(comm, &other);
    PMPI_Group_translate_ranks(own, 1, &zero, other, &first);
    PMPI_Group_free(&own);
    PMPI_Group_free(&other);
    PMPI_Comm_rank(made, &rank);
    write_line("split %d %d %d %d", ++numbers, old, first, rank);
    add(made, numbers);
}

/* The call hangs where members make different ones: then its record says that it entered it, and no more. */
#define MADE(NAME, PARAMETERS, ARGUMENTS)                                                                              \
    int MPI_##NAME PARAMETERS {                                                                                        \
        bool is_own = begin_call("MPI_" #NAME);                                                                        \
        int code = PMPI_##NAME ARGUMENTS;                                                                              \
        if (is_own && code == MPI_SUCCESS) write_made(comm, *made);                                                    \
        return end_call(is_own, code);                                                                                 \
    }
MADE(Comm_create, (MPI_Comm comm, MPI_Group group, MPI_Comm *made), (comm, group, made))
MADE(Comm_split_type, (MPI_Comm comm, int kind, int key, MPI_Info info, MPI_Comm *made), (comm, kind, key, info, made))
MADE(Cart_create, (MPI_Comm comm, int count, const int sizes[], const int periods[], int reorders, MPI_Comm *made),
     (comm, count, sizes, periods, reorders, made))
MADE(Cart_sub, (MPI_Comm comm, const int keeps[], MPI_Comm *made), (comm, keeps, made))
MADE(Graph_create, (MPI_Comm comm, int count, const int index[], const int edges[], int reorders, MPI_Comm *made),
     (comm, count, index, edges, reorders, made))
MADE(Dist_graph_create_adjacent,
     (MPI_Comm comm, int in, const int sources[], const int in_weights[], int out, const int targets[],
      const int out_weights[], MPI_Info info, int reorders, MPI_Comm *made),
     (comm, in, sources, in_weights, out, targets, out_weights, info, reorders, made))
MADE(Dist_graph_create,
     (MPI_Comm comm, int count, const int sources[], const int degrees[], const int targets[], const int weights[],
      MPI_Info info, int reorders, MPI_Comm *made),
     (comm, count, sources, degrees, targets, weights, info, reorders, made))

/* ---- communicators that their members alone make: what happens on them isn't in the record ---- */

int MPI_Comm_create_group(MPI_Comm comm, MPI_Group group, int tag, MPI_Comm *made) {
    bool is_own = begin_call("MPI_Comm_create_group");
    if (is_own) write_lack("MPI_Comm_create_group");
    return end_call(is_own, PMPI_Comm_create_group(comm, group, tag, made));
}

int MPI_Intercomm_merge(MPI_Comm comm, int is_high, MPI_Comm *made) {
    bool is_own = begin_call("MPI_Intercomm_merge");
    if (is_own) write_lack("MPI_Intercomm_merge");
    return end_call(is_own, PMPI_Intercomm_merge(comm, is_high, made));
}

static void drop(MPI_Comm comm) {
    for (int i = SELF + 1; i < communicator_count; i++) {
        if (communicators[i].comm != comm) continue;
        write_line("drop %d", communicators[i].number);
        communicators[i] = communicators[--communicator_count];
        return;
    }
}

int MPI_Comm_free(MPI_Comm *comm) {
    bool is_own = begin_call("MPI_Comm_free");
    if (is_own) drop(*comm);
    return end_call(is_own, PMPI_Comm_free(comm));
}

int MPI_Comm_disconnect(MPI_Comm *comm) {
    bool is_own = begin_call("MPI_Comm_disconnect");
    if (is_own) drop(*comm);
    return end_call(is_own, PMPI_Comm_disconnect(comm));
}
