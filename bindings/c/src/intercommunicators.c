/* Intercommunicators: their groups, what is asked of them, and what is made of them. See intercommunicators.h. */
#include "intercommunicators.h"

#include "errors.h"
#include "groups.h"
#include "internal.h"
#include "plan_runs.h"
#include "worlds.h"

#include <stdlib.h>
#include <string.h>

/* ---- groups ---- */

int rank_of_member(const struct communicator *comm, int member) {
    if (comm == NULL || !is_inter(comm)) return member;
    for (int rank = 0; rank < comm->groups->other_size; rank++)
        if (comm->groups->other[rank] == member) return rank;
    return member;
}

struct two_groups *new_groups(int all_size) {
    struct two_groups *made = calloc(1, sizeof *made);
    if (made == NULL) return NULL;
    made->own = calloc(2 * (size_t)all_size, sizeof *made->own);
    if (made->own == NULL) {
        free(made);
        return NULL;
    }
    made->other = made->own + all_size;
    return made;
}

void free_groups(struct two_groups *groups) {
    if (groups == NULL) return;
    free(groups->own);
    free(groups);
}

void take_groups(struct communicator *made, struct two_groups *groups) {
    made->groups = groups;
    made->size = groups->size;
    for (int rank = 0; rank < groups->size; rank++)
        if (groups->own[rank] == made->all_rank) made->rank = rank;
}

/* Whether a member of the new one was of its parent's own group. */
static bool was_own(const struct communicator *parent, int rank) {
    for (int at = 0; at < parent->groups->size; at++)
        if (world_rank(parent, parent->groups->own[at]) == rank) return true;
    return false;
}

uint32_t part_groups(struct communicator *made, const struct communicator *parent, bool *is_none) {
    struct two_groups *groups = new_groups(made->all_size);
    *is_none = false;
    if (groups == NULL) return NUMBER_NO_MEMORY;
    for (int member = 0; member < made->all_size; member++) {
        if (was_own(parent, world_rank(made, member))) groups->own[groups->size++] = (uint16_t)member;
        else groups->other[groups->other_size++] = (uint16_t)member;
    }
    *is_none = groups->size == 0 || groups->other_size == 0;
    if (*is_none) free_groups(groups);
    else take_groups(made, groups);
    return 0;
}

uint32_t copy_groups(struct communicator *made, const struct communicator *parent) {
    struct two_groups *groups = new_groups(parent->all_size);
    if (groups == NULL) return NUMBER_NO_MEMORY;
    groups->size = parent->groups->size;
    groups->other_size = parent->groups->other_size;
    memcpy(groups->own, parent->groups->own, 2 * (size_t)parent->all_size * sizeof *groups->own);
    take_groups(made, groups);
    return 0;
}

/* ---- what is asked ---- */

int check_intra(MPI_Comm comm, const char *call, const struct communicator *own) {
    if (!is_inter(own)) return MPI_SUCCESS;
    return raise_on(comm, call, MPI_ERR_COMM, "the communicator is an intercommunicator");
}

static int check_inter(MPI_Comm comm, const char *call, struct communicator **own) {
    check_running(call);
    int class = check_comm(comm, call, own);
    if (class != MPI_SUCCESS || is_inter(*own)) return class;
    return raise_on(comm, call, MPI_ERR_COMM, "the communicator is no intercommunicator");
}

int MPI_Comm_test_inter(MPI_Comm comm, int *flag) {
    NOTE_CALLER();
    struct communicator *own;
    check_running("MPI_Comm_test_inter");
    int class = check_comm(comm, "MPI_Comm_test_inter", &own);
    if (class == MPI_SUCCESS) class = check_result(comm, "MPI_Comm_test_inter", flag, "flag");
    if (class == MPI_SUCCESS) *flag = is_inter(own);
    return class;
}

int MPI_Comm_remote_size(MPI_Comm comm, int *size) {
    NOTE_CALLER();
    static const char call[] = "MPI_Comm_remote_size";
    struct communicator *own;
    int class = check_inter(comm, call, &own);
    if (class == MPI_SUCCESS) class = check_result(comm, call, size, "size");
    if (class == MPI_SUCCESS) *size = own->groups->other_size;
    return class;
}

/* The members of a group of an intercommunicator, by their ranks in MPI_COMM_WORLD. */
static uint16_t *list_group(MPI_Comm comm, const char *call, bool is_own, int *class) {
    const struct communicator *own = communicator_of(comm);
    const int size = is_own ? own->groups->size : own->groups->other_size;
    const uint16_t *places = is_own ? own->groups->own : own->groups->other;
    uint16_t *list = malloc((size_t)size * sizeof *list);
    if (list == NULL) *class = raise_on(comm, call, MPI_ERR_NO_MEM, "no memory for a group");
    for (int rank = 0; list != NULL && rank < size; rank++) list[rank] = (uint16_t)world_rank(own, places[rank]);
    return list;
}

uint16_t *members_of_other(MPI_Comm comm, const char *call, int *class) { return list_group(comm, call, false, class); }

uint16_t *members_of_communicator(MPI_Comm comm, const char *call, int *class) {
    const struct communicator *own = communicator_of(comm);
    struct engine_answer answer;
    if (is_inter(own)) return list_group(comm, call, true, class);
    call_engine(&(struct engine_call){.kind = ENGINE_MEMBERS, .communicator = own->place}, NULL, 0, &answer);
    if (answer.kind != ENGINE_FACT) {
        *class = raise_number(comm, call, answer.number);
        return NULL;
    }
    uint16_t *members = malloc((size_t)own->size * sizeof *members);
    if (members == NULL) {
        *class = raise_on(comm, call, MPI_ERR_NO_MEM, "no memory for a group");
        return NULL;
    }
    take_from_engine(0, (uint8_t *)members, (size_t)own->size * sizeof *members);
    for (int at = 0; at < own->size; at++) members[at] = (uint16_t)first_rank(own->world, members[at]);
    return members;
}

int MPI_Comm_remote_group(MPI_Comm comm, MPI_Group *group) {
    NOTE_CALLER();
    static const char call[] = "MPI_Comm_remote_group";
    struct communicator *own;
    int class = check_inter(comm, call, &own);
    if (class == MPI_SUCCESS) class = check_result(comm, call, group, "group");
    if (class != MPI_SUCCESS) return class;
    uint16_t *members = members_of_other(comm, call, &class);
    if (members != NULL) class = add_group(comm, call, members, own->groups->other_size, group);
    free(members);
    return class;
}

/* ---- merging ---- */

int MPI_Intercomm_merge(MPI_Comm intercomm, int high, MPI_Comm *newintracomm) {
    NOTE_CALLER();
    static const char call[] = "MPI_Intercomm_merge";
    enum { HIGH = 1 << 20, BEHIND = 1 << 12 /* more than a group has members */ };
    struct communicator *own;
    int class = check_inter(intercomm, call, &own);
    if (class == MPI_SUCCESS) class = check_result(intercomm, call, newintracomm, "newintracomm");
    if (class != MPI_SUCCESS) return class;
    /* Where both say the same, the group that has the first of all members comes first. */
    const bool is_first = own->groups->own[0] < own->groups->other[0];
    struct engine_call entry = {.kind = ENGINE_SPLIT, .colour = 0};
    entry.order = (high ? HIGH : 0) + (is_first ? 0 : BEHIND) + own->rank;
    class = make_communicator(intercomm, call, &entry, newintracomm);
    if (class != MPI_SUCCESS) return class;
    struct communicator *made = communicator_of(*newintracomm);
    free_groups(made->groups);
    made->groups = NULL;
    made->rank = made->all_rank;
    made->size = made->all_size;
    return MPI_SUCCESS;
}
