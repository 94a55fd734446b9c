/* Communicators of groups, of machines (MPI 3.1, 6.4.2), and their end (10.5.4). They go by the engine's SPLIT. */
#include "errors.h"
#include "group_lists.h"
#include "groups.h"
#include "info.h"
#include "intercommunicators.h"
#include "internal.h"

#include <stdlib.h>
#include <string.h>

/* ---- of a group ---- */

/* The ranks that a group's members have in the communicator, and the own place among them: the first of them is what
 * the parts are told apart by, since groups that are handed in have no member in common (6.4.2). */
static int place_group(MPI_Comm comm, const char *call, struct members group, struct engine_call *entry) {
    int class = MPI_SUCCESS;
    uint16_t *list = members_of_communicator(comm, call, &class);
    if (list == NULL) return class;
    const struct members all = {list, communicator_of(comm)->size};
    for (int at = 0; class == MPI_SUCCESS && at < group.size; at++)
        if (place_in(all, group.list[at]) < 0)
            class =
                raise_on(comm, call, MPI_ERR_GROUP, "rank %d of MPI_COMM_WORLD is in the group alone", group.list[at]);
    entry->order = place_in(group, (uint16_t)process.rank);
    /* Of an intercommunicator both groups' parts become one. */
    if (entry->order < 0) entry->colour = ENGINE_NO_COLOUR;
    else entry->colour = is_inter(communicator_of(comm)) ? 0 : place_in(all, group.list[0]);
    free(list);
    return class;
}

int MPI_Comm_create(MPI_Comm comm, MPI_Group group, MPI_Comm *newcomm) {
    NOTE_CALLER();
    static const char call[] = "MPI_Comm_create";
    struct communicator *own;
    struct members members;
    struct engine_call entry = {.kind = ENGINE_SPLIT};
    check_running(call);
    int class = check_comm(comm, call, &own);
    if (class == MPI_SUCCESS) class = check_result(comm, call, newcomm, "newcomm");
    if (class == MPI_SUCCESS) class = check_members(call, group, &members);
    if (class == MPI_SUCCESS) class = place_group(comm, call, members, &entry);
    return class != MPI_SUCCESS ? class : make_communicator(comm, call, &entry, newcomm);
}

/* ---- of a machine ---- */

/* The only resource that ranks are known to share, and the key that names one (MPI 4.0, 7.4.2). */
static const char resource_key[] = "mpi_hw_resource_type", machine[] = "mpi_shared_memory";

/* Whether all members of a communicator are on one machine: then those of a machine are no smaller part of it. */
static int ask_machine(MPI_Comm comm, const char *call, bool *is_one) {
    int class = MPI_SUCCESS;
    uint16_t *list = members_of_communicator(comm, call, &class);
    *is_one = list != NULL;
    for (int at = 0; list != NULL && at < communicator_of(comm)->size; at++) *is_one &= is_neighbour(list[at]);
    free(list);
    return class;
}

/* By what the parts are told apart: 0, or a class. */
static int find_resource(MPI_Comm comm, const char *call, int split_type, MPI_Info info, int32_t *colour) {
    bool is_machine = split_type == MPI_COMM_TYPE_SHARED, is_one = false;
    int class = MPI_SUCCESS;
    if (split_type == MPI_COMM_TYPE_HW_GUIDED) {
        const char *named = info_value(info, resource_key);
        is_machine = named != NULL && strcmp(named, machine) == 0;
    } else if (split_type == MPI_COMM_TYPE_HW_UNGUIDED) {
        class = ask_machine(comm, call, &is_one);
        is_machine = !is_one;
    } else if (!is_machine && split_type != MPI_UNDEFINED)
        class = raise_on(comm, call, MPI_ERR_ARG, "split type %d", split_type);
    *colour = is_machine ? first_neighbour() : ENGINE_NO_COLOUR;
    return class;
}

int MPI_Comm_split_type(MPI_Comm comm, int split_type, int key, MPI_Info info, MPI_Comm *newcomm) {
    NOTE_CALLER();
    static const char call[] = "MPI_Comm_split_type";
    struct communicator *own;
    struct engine_call entry = {.kind = ENGINE_SPLIT, .order = key};
    check_running(call);
    int class = check_comm(comm, call, &own);
    if (class == MPI_SUCCESS) class = check_hints(comm, call, info);
    if (class == MPI_SUCCESS) class = check_result(comm, call, newcomm, "newcomm");
    if (class == MPI_SUCCESS) class = find_resource(comm, call, split_type, info, &entry.colour);
    if (class == MPI_SUCCESS) class = make_communicator(comm, call, &entry, newcomm);
    /* It tells which resource it has found, where it is to. */
    const bool is_told = split_type == MPI_COMM_TYPE_HW_UNGUIDED && info != MPI_INFO_NULL;
    if (class == MPI_SUCCESS && is_told && *newcomm != MPI_COMM_NULL)
        class = set_info(call, info, resource_key, machine);
    return class;
}

/* ---- hints, of which none is used ---- */

int MPI_Comm_dup_with_info(MPI_Comm comm, MPI_Info info, MPI_Comm *newcomm) {
    NOTE_CALLER();
    static const char call[] = "MPI_Comm_dup_with_info";
    struct communicator *own;
    check_running(call);
    int class = check_comm(comm, call, &own);
    if (class == MPI_SUCCESS) class = check_hints(comm, call, info);
    if (class == MPI_SUCCESS) class = check_result(comm, call, newcomm, "newcomm");
    return class != MPI_SUCCESS ? class : copy_communicator(comm, call, newcomm);
}

int MPI_Comm_set_info(MPI_Comm comm, MPI_Info info) {
    NOTE_CALLER();
    static const char call[] = "MPI_Comm_set_info";
    struct communicator *own;
    check_running(call);
    int class = check_comm(comm, call, &own);
    if (class == MPI_SUCCESS && info == MPI_INFO_NULL)
        return raise_on(comm, call, MPI_ERR_INFO, "the info object is MPI_INFO_NULL");
    return class != MPI_SUCCESS ? class : check_hints(comm, call, info);
}

int MPI_Comm_get_info(MPI_Comm comm, MPI_Info *info_used) {
    NOTE_CALLER();
    static const char call[] = "MPI_Comm_get_info";
    struct communicator *own;
    struct info *made;
    check_running(call);
    int class = check_comm(comm, call, &own);
    if (class == MPI_SUCCESS) class = check_result(comm, call, info_used, "info_used");
    return class != MPI_SUCCESS ? class : add_info(call, &made, info_used);
}

/* ---- the end ---- */

/* A request of this communicator that isn't at its end, or NULL. */
static struct request *pending_in(const struct communicator *comm) {
    for (int place = 0; place < request_places(); place++) {
        struct request *request = request_at(place);
        if (request != NULL && !request->is_inactive && request->comm == comm && !is_at_end(request)) return request;
    }
    return NULL;
}

int MPI_Comm_disconnect(MPI_Comm *comm) {
    NOTE_CALLER();
    static const char call[] = "MPI_Comm_disconnect";
    struct communicator *own;
    struct request *pending;
    check_running(call);
    int class = check_result(MPI_COMM_WORLD, call, comm, "comm");
    if (class == MPI_SUCCESS) class = check_comm(*comm, call, &own);
    if (class != MPI_SUCCESS) return class;
    progress();
    while ((pending = pending_in(own)) != NULL) await_request(pending);
    return MPI_Comm_free(comm);
}
