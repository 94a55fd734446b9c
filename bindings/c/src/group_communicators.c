/* Communicators that a group makes alone (MPI 3.1, 6.4.2 and 6.6.2): each has a world of its own (worlds.h). */
#include "errors.h"
#include "explored.h"
#include "group_lists.h"
#include "groups.h"
#include "intercommunicators.h"
#include "internal.h"
#include "invitations.h"
#include "plan_runs.h"
#include "rows.h"
#include "worlds.h"

#include <stdlib.h>
#include <string.h>

#define NO_NUMBER_LEFT "no number is left for another communicator"

/* A list of its own, for who keeps it; NULL: no memory. */
static uint16_t *copy_list(const uint16_t *list, int count, const uint16_t *more, int more_count) {
    uint16_t *made = malloc(((size_t)count + (size_t)more_count) * sizeof *made);
    if (made == NULL) return NULL;
    memcpy(made, list, (size_t)count * sizeof *made);
    if (more_count > 0) memcpy(made + count, more, (size_t)more_count * sizeof *made);
    return made;
}

/* ---- of a group of a communicator's members ---- */

/* Finds where the members of a group are in the communicator: 0, or the class of an error. */
static int find_places(MPI_Comm comm, const char *call, struct members group, int *places) {
    int class = MPI_SUCCESS;
    uint16_t *list = members_of_communicator(comm, call, &class);
    if (list == NULL) return class;
    const struct members all = {list, communicator_of(comm)->size};
    for (int at = 0; class == MPI_SUCCESS && at < group.size; at++) {
        places[at] = place_in(all, group.list[at]);
        if (places[at] < 0)
            class =
                raise_on(comm, call, MPI_ERR_GROUP, "rank %d of MPI_COMM_WORLD is in the group alone", group.list[at]);
    }
    free(list);
    return class;
}

/* The first member draws the number, and tells the others: 0, or the engine's number of an error. */
static uint32_t agree(struct communicator *comm, int tag, struct members group, const int *places, uint64_t *number) {
    struct invitation it = {.mark = mark_of(tag, group.list, group.size)};
    uint32_t refusal = 0;
    if (group.list[0] != process.rank) {
        refusal = hear_invitation(comm, places[0], tag, it.mark, &it);
        *number = it.number;
        return refusal;
    }
    *number = it.number = draw_number();
    for (int at = 1; at < group.size && refusal == 0; at++) {
        struct engine_request begun;
        refusal = begin_invitation(comm, places[at], tag, &it, &begun);
        if (refusal == 0) refusal = end_invitation(&begun);
    }
    return refusal;
}

static int create_group(MPI_Comm comm, const char *call, int tag, struct members group, MPI_Comm *newcomm) {
    struct communicator *own = communicator_of(comm);
    int *places = calloc((size_t)group.size, sizeof *places);
    uint16_t *list = copy_list(group.list, group.size, NULL, 0);
    uint64_t world = 0;
    uint32_t number = NUMBER_NO_MEMORY;
    int class = places == NULL || list == NULL ? MPI_SUCCESS : find_places(comm, call, group, places);
    if (class == MPI_SUCCESS && places != NULL && list != NULL) number = agree(own, tag, group, places, &world);
    free(places);
    if (class == MPI_SUCCESS && number == 0) number = open_group(world, list, group.size, own, newcomm);
    else free(list);
    if (class != MPI_SUCCESS || number == 0) return class;
    return raise_limited(comm, call, number, NO_NUMBER_LEFT);
}

int MPI_Comm_create_group(MPI_Comm comm, MPI_Group group, int tag, MPI_Comm *newcomm) {
    NOTE_CALLER();
    static const char call[] = "MPI_Comm_create_group";
    struct communicator *own;
    struct members members;
    check_running(call);
    int class = check_comm(comm, call, &own);
    if (class == MPI_SUCCESS) explored_refuse(call, "a communicator that a group makes alone");
    if (class == MPI_SUCCESS) class = check_intra(comm, call, own);
    if (class == MPI_SUCCESS) class = check_result(comm, call, newcomm, "newcomm");
    if (class == MPI_SUCCESS) class = check_members(call, group, &members);
    if (class == MPI_SUCCESS) class = check_tag(comm, call, tag);
    if (class != MPI_SUCCESS) return class;
    *newcomm = MPI_COMM_NULL;
    if (place_in(members, (uint16_t)process.rank) < 0) return MPI_SUCCESS;
    return create_group(comm, call, tag, members, newcomm);
}

/* ---- of two groups ---- */

/* What MPI_Intercomm_create was given. */
struct pairing {
    MPI_Comm local, peer;
    int local_leader, remote_leader, tag;
};

static const char create_call[] = "MPI_Intercomm_create";

/* What one group's leader tells its group instead of a number: why there is none. */
enum { BAD_PEER = 1, COMMON_RANKS, REFUSED };

/* Checks what counts at a leader alone: 0, or a class. */
static int check_peer(const struct pairing *it, struct communicator **peer) {
    int class = check_comm(it->peer, create_call, peer);
    if (class == MPI_SUCCESS && (it->remote_leader < 0 || it->remote_leader >= peers_of(*peer)))
        class = raise_on(it->peer, create_call, MPI_ERR_RANK, "remote leader %d of a communicator of %d",
                         it->remote_leader, peers_of(*peer));
    return class == MPI_SUCCESS ? check_tag(it->peer, create_call, it->tag) : class;
}

/* The leaders tell one another their groups, and each draws a number: 0, or the engine's number of an error. */
static uint32_t exchange(const struct pairing *it, struct communicator *peer, const struct invitation *own,
                         struct invitation *other) {
    const int member = member_of(peer, it->remote_leader);
    struct engine_request begun;
    uint32_t number = begin_invitation(peer, member, it->tag, own, &begun);
    if (number == 0) number = hear_invitation(peer, member, it->tag, own->mark, other);
    const uint32_t sent = number == 0 ? end_invitation(&begun) : 0;
    return number != 0 ? number : sent;
}

/* At a leader: finds the other group, and which number both take: that of the group with the lower first rank. */
static int meet(const struct pairing *it, struct members local, struct invitation *other) {
    struct communicator *peer;
    struct invitation own = {.number = draw_number(), .mark = mark_of(it->tag, NULL, 0), .count = (uint32_t)local.size};
    int class = check_peer(it, &peer);
    *other = (struct invitation){.mark = BAD_PEER};
    if (class != MPI_SUCCESS) return class;
    memcpy(own.list, local.list, (size_t)local.size * sizeof *own.list);
    uint32_t number = 0;
    if (world_rank(peer, member_of(peer, it->remote_leader)) == process.rank) *other = own;
    else number = exchange(it, peer, &own, other);
    if (number != 0) {
        *other = (struct invitation){.mark = REFUSED};
        return raise_number(it->local, create_call, number);
    }
    const struct members remote = {other->list, (int)other->count};
    if (local.list[0] < remote.list[0]) other->number = own.number;
    if (have_common(local, remote)) *other = (struct invitation){.mark = COMMON_RANKS};
    return MPI_SUCCESS;
}

/* The communicator of both groups. */
static int pair(const struct pairing *it, struct members local, struct members remote, uint64_t number,
                MPI_Comm *newcomm) {
    const bool is_first = local.list[0] < remote.list[0];
    const struct members first = is_first ? local : remote, second = is_first ? remote : local;
    const int size = local.size + remote.size;
    struct two_groups *groups = new_groups(size);
    uint16_t *list = groups == NULL ? NULL : copy_list(first.list, first.size, second.list, second.size);
    uint32_t refusal = NUMBER_NO_MEMORY;
    if (list != NULL) refusal = open_group(number, list, size, communicator_of(it->local), newcomm);
    if (refusal != 0) {
        free_groups(groups);
        return raise_limited(it->local, create_call, refusal, NO_NUMBER_LEFT);
    }
    groups->size = local.size;
    groups->other_size = remote.size;
    for (int at = 0; at < local.size; at++) groups->own[at] = (uint16_t)(at + (is_first ? 0 : remote.size));
    for (int at = 0; at < remote.size; at++) groups->other[at] = (uint16_t)(at + (is_first ? local.size : 0));
    take_groups(communicator_of(*newcomm), groups);
    return MPI_SUCCESS;
}

/* Where no intercommunicator can be made, all members of the group learn of it. */
static int tell_refusal(const struct pairing *it, uint64_t why) {
    static const char *const causes[] = {[BAD_PEER] = "the leader's arguments are wrong",
                                         [COMMON_RANKS] = "the groups have a rank in common",
                                         [REFUSED] = "the leaders couldn't meet"};
    if (why > REFUSED || causes[why] == NULL)
        return raise_limited(it->local, create_call, NUMBER_LIMIT, NO_NUMBER_LEFT);
    return raise_on(it->local, create_call, MPI_ERR_COMM, "%s", causes[why]);
}

static int create_pair(const struct pairing *it, MPI_Comm *newcomm) {
    struct communicator *own = communicator_of(it->local);
    struct invitation other;
    int class = MPI_SUCCESS, at_leader = MPI_SUCCESS;
    uint16_t *list = members_of_communicator(it->local, create_call, &class);
    if (list == NULL) return class;
    const struct members local = {list, own->size};
    if (own->rank == it->local_leader) at_leader = meet(it, local, &other);
    const struct collective all = {own, it->local_leader, ENGINE_BYTE, 1};
    uint32_t number = broadcast_row(all, &other, sizeof other);
    if (at_leader != MPI_SUCCESS) class = at_leader;
    else if (number != 0) class = raise_number(it->local, create_call, number);
    else if (other.number == 0) class = tell_refusal(it, other.mark);
    else class = pair(it, local, (struct members){other.list, (int)other.count}, other.number, newcomm);
    free(list);
    return class;
}

int MPI_Intercomm_create(MPI_Comm local_comm, int local_leader, MPI_Comm peer_comm, int remote_leader, int tag,
                         MPI_Comm *newintercomm) {
    NOTE_CALLER();
    const struct pairing it = {local_comm, peer_comm, local_leader, remote_leader, tag};
    struct communicator *own;
    check_running(create_call);
    int class = check_comm(local_comm, create_call, &own);
    if (class == MPI_SUCCESS) explored_refuse(create_call, "an intercommunicator");
    if (class == MPI_SUCCESS) class = check_intra(local_comm, create_call, own);
    if (class == MPI_SUCCESS) class = check_root(local_comm, create_call, own, local_leader);
    if (class == MPI_SUCCESS) class = check_result(local_comm, create_call, newintercomm, "newintercomm");
    if (class != MPI_SUCCESS) return class;
    *newintercomm = MPI_COMM_NULL;
    return create_pair(&it, newintercomm);
}
