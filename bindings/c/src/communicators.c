/* Communicators (MPI 3.1, 6.4, 6.6.1, 6.8): what is decided about them is the engine's; here stand their handles. */
#include "communicators.h"

#include "attributes.h"
#include "errors.h"
#include "explored.h"
#include "group_lists.h"
#include "groups.h"
#include "handlers.h"
#include "intercommunicators.h"
#include "internal.h"
#include "names.h"
#include "plan_runs.h"
#include "rows.h"
#include "table.h"
#include "topologies.h"
#include "turns.h"
#include "worlds.h"

#include <stdlib.h>

/* All communicators; MPI_COMM_WORLD and MPI_COMM_SELF have the first two places, as in the engine. */
static struct table communicators = TABLE_OF(KIND_COMMUNICATOR);

struct communicator *communicator_of(MPI_Comm handle) {
    return table_find(&communicators, (intptr_t)handle);
}

struct communicator *communicator_at(uint32_t place) {
    for (int at = 0; at < communicators.count; at++) {
        struct communicator *it = communicators.places[at].object;
        if (it != NULL && it->place == place) return it;
    }
    return NULL;
}

void each_communicator(void (*visit)(const struct communicator *)) {
    for (int at = 0; at < communicators.count; at++)
        if (communicators.places[at].object != NULL) visit(communicators.places[at].object);
}

/* What the engine tells of a communicator by a number. */
static int fact_of(uint32_t place, enum engine_call_kind question) {
    struct engine_answer answer;
    call_engine(&(struct engine_call){.kind = question, .communicator = place}, NULL, 0, &answer);
    return (int)answer.fact;
}

struct communicator *new_communicator(MPI_Comm *handle) {
    struct communicator *made = calloc(1, sizeof *made);
    int64_t number = made == NULL ? 0 : table_add(&communicators, made);
    if (number == 0) {
        free(made);
        return NULL;
    }
    made->uses = 1;
    made->place = ENGINE_NO_COMMUNICATOR;
    *handle = made->handle = (MPI_Comm)(intptr_t)number;
    return made;
}

struct communicator *hold_communicator(struct communicator *comm) {
    comm->uses++;
    return comm;
}

void release_communicator(struct communicator *comm) {
    if (--comm->uses > 0) return;
    release_topology(comm->topology);
    release_handler(comm->errhandler);
    forget_attributes(&comm->attributes);
    forget_number(comm);
    free_groups(comm->groups);
    if (comm->world != NULL) release_world(comm->world);
    free(comm);
}

void drop_communicator(MPI_Comm comm) { release_communicator(table_remove(&communicators, (intptr_t)comm)); }

void place_communicator(struct communicator *made, uint32_t place, const struct communicator *parent) {
    made->place = place;
    made->world = hold_world(world_of_place(place));
    made->rank = made->all_rank = fact_of(place, ENGINE_RANK);
    made->size = made->all_size = fact_of(place, ENGINE_SIZE);
    made->errhandler = hold_handler(parent == NULL ? MPI_ERRORS_ARE_FATAL : parent->errhandler);
}

int open_communicators(void) {
    static const char *const names[] = {"MPI_COMM_WORLD", "MPI_COMM_SELF"};
    for (uint32_t place = ENGINE_WORLD; place <= ENGINE_SELF; place++) {
        MPI_Comm handle;
        struct communicator *made = new_communicator(&handle);
        if (made == NULL) return MPI_ERR_NO_MEM;
        place_communicator(made, place, NULL);
        copy_name(made->name, names[place]);
        made->number = place;
    }
    return MPI_SUCCESS;
}

void close_communicators(void) {
    for (int place = 0; place < communicators.count; place++) {
        struct communicator *it = communicators.places[place].object;
        if (it != NULL) release_communicator(it);
    }
    table_free(&communicators);
    close_groups();
}

int MPI_Comm_size(MPI_Comm comm, int *size) {
    NOTE_CALLER();
    struct communicator *own;
    check_running("MPI_Comm_size");
    int class = check_comm(comm, "MPI_Comm_size", &own);
    if (class == MPI_SUCCESS) class = check_result(comm, "MPI_Comm_size", size, "size");
    if (class == MPI_SUCCESS) *size = own->size;
    return class;
}

int MPI_Comm_rank(MPI_Comm comm, int *rank) {
    NOTE_CALLER();
    struct communicator *own;
    check_running("MPI_Comm_rank");
    int class = check_comm(comm, "MPI_Comm_rank", &own);
    if (class == MPI_SUCCESS) class = check_result(comm, "MPI_Comm_rank", rank, "rank");
    if (class == MPI_SUCCESS) *rank = own->rank;
    return class;
}

/* Of two intracommunicators of one world. */
static int compare_in_engine(MPI_Comm comm1, const char *call, const struct communicator *second, int *result) {
    static const int comparisons[] = {[ENGINE_IDENT] = MPI_IDENT,
                                      [ENGINE_CONGRUENT] = MPI_CONGRUENT,
                                      [ENGINE_SIMILAR] = MPI_SIMILAR,
                                      [ENGINE_UNEQUAL] = MPI_UNEQUAL};
    struct engine_answer answer;
    const struct engine_call compare = {
        .kind = ENGINE_COMPARE, .communicator = communicator_of(comm1)->place, .other = second->place};
    call_engine(&compare, NULL, 0, &answer);
    if (answer.kind != ENGINE_FACT) return raise_number(comm1, call, answer.number);
    *result = comparisons[answer.fact & 3];
    return MPI_SUCCESS;
}

/* Of two others, neither of which is the other one: by their groups, or by both groups of each. */
static int compare_lists(MPI_Comm comm1, MPI_Comm comm2, const char *call, int *result) {
    const struct communicator *first = communicator_of(comm1), *second = communicator_of(comm2);
    bool are_same = true, are_similar = true;
    int class = MPI_SUCCESS;
    for (int turn = 0; class == MPI_SUCCESS && turn < (is_inter(first) ? 2 : 1); turn++) {
        uint16_t *one =
            turn == 0 ? members_of_communicator(comm1, call, &class) : members_of_other(comm1, call, &class);
        uint16_t *two = one == NULL ? NULL
                        : turn == 0 ? members_of_communicator(comm2, call, &class)
                                    : members_of_other(comm2, call, &class);
        const struct members left = {one, turn == 0 ? first->size : first->groups->other_size};
        const struct members right = {two, turn == 0 ? second->size : second->groups->other_size};
        are_same &= two != NULL && are_same_lists(left, right);
        are_similar &= two != NULL && are_same_members(left, right);
        free(one);
        free(two);
    }
    *result = are_same ? MPI_CONGRUENT : are_similar ? MPI_SIMILAR : MPI_UNEQUAL;
    return class;
}

int MPI_Comm_compare(MPI_Comm comm1, MPI_Comm comm2, int *result) {
    NOTE_CALLER();
    const char *call = "MPI_Comm_compare";
    struct communicator *first, *second;
    check_running(call);
    int class = check_comm(comm1, call, &first);
    if (class == MPI_SUCCESS) class = check_comm(comm2, call, &second);
    if (class == MPI_SUCCESS) class = check_result(comm1, call, result, "result");
    if (class != MPI_SUCCESS) return class;
    if (first->world == second->world && !is_inter(first) && !is_inter(second))
        return compare_in_engine(comm1, call, second, result);
    *result = MPI_UNEQUAL;
    if (first == second) *result = MPI_IDENT;
    else if (is_inter(first) == is_inter(second)) class = compare_lists(comm1, comm2, call, result);
    return class;
}

int MPI_Comm_group(MPI_Comm comm, MPI_Group *group) {
    NOTE_CALLER();
    const char *call = "MPI_Comm_group";
    struct communicator *own;
    check_running(call);
    int class = check_comm(comm, call, &own);
    if (class == MPI_SUCCESS) class = check_result(comm, call, group, "group");
    if (class != MPI_SUCCESS) return class;
    uint16_t *members = members_of_communicator(comm, call, &class);
    if (members == NULL) return class;
    class = add_group(comm, call, members, own->size, group);
    free(members);
    return class;
}

/* So many of a communicator are its engine's, by how many others it comes of in its world; further ones have worlds of
 * their own. They are 4,000 of MPI_COMM_WORLD and MPI_COMM_SELF together, and an engine makes 4,094: no program comes
 * to that limit. All members count alike, since they make what comes of it together. */
static uint32_t most_in_engine(const struct communicator *own) {
    static const uint32_t most[] = {500, 3};
    return own->depth < sizeof most / sizeof *most ? most[own->depth] : 0;
}

static const char most_were_made[] = "4,094 communicators were made, or no number is left for another one";

int make_communicator(MPI_Comm comm, const char *call, struct engine_call *entry, MPI_Comm *newcomm) {
    struct communicator *own = communicator_of(comm);
    MPI_Comm handle;
    struct engine_answer answer;
    if (++own->made > most_in_engine(own) && !is_explored) return make_further(comm, call, entry, newcomm);
    struct communicator *made = new_communicator(&handle);
    if (made == NULL) return raise_on(comm, call, MPI_ERR_NO_MEM, "no memory for a communicator");
    entry->communicator = own->place;
    *newcomm = MPI_COMM_NULL;
    uint32_t number = begin_turn(own, -1);
    if (number == 0) number = enter_engine(entry, NULL, 0, &answer);
    bool is_none = number != 0 || answer.communicator == ENGINE_NO_COMMUNICATOR;
    if (!is_none) {
        place_communicator(made, answer.communicator, own);
        made->depth = own->depth + 1;
        number = number_communicator(made);
        if (number == 0 && is_inter(own)) number = part_groups(made, own, &is_none);
    }
    end_turn();
    if (!is_none && number == 0) *newcomm = handle;
    else drop_communicator(handle);
    if (number == 0) return MPI_SUCCESS;
    if (number == NUMBER_LIMIT) explored_refuse(call, most_were_made);
    return raise_limited(comm, call, number, most_were_made);
}

int copy_communicator(MPI_Comm comm, const char *call, MPI_Comm *newcomm) {
    int class = make_communicator(comm, call, &(struct engine_call){.kind = ENGINE_DUP}, newcomm);
    if (class != MPI_SUCCESS) return class;
    communicator_of(*newcomm)->topology = hold_topology(communicator_of(comm)->topology);
    class = copy_values(comm, call, *newcomm);
    if (class == MPI_SUCCESS) return class;
    drop_communicator(*newcomm);
    *newcomm = MPI_COMM_NULL;
    return class;
}

int MPI_Comm_dup(MPI_Comm comm, MPI_Comm *newcomm) {
    NOTE_CALLER();
    struct communicator *own;
    check_running("MPI_Comm_dup");
    int class = check_comm(comm, "MPI_Comm_dup", &own);
    if (class == MPI_SUCCESS) class = check_result(comm, "MPI_Comm_dup", newcomm, "newcomm");
    if (class != MPI_SUCCESS) return class;
    return copy_communicator(comm, "MPI_Comm_dup", newcomm);
}

int MPI_Comm_split(MPI_Comm comm, int color, int key, MPI_Comm *newcomm) {
    NOTE_CALLER();
    struct communicator *own;
    check_running("MPI_Comm_split");
    int class = check_comm(comm, "MPI_Comm_split", &own);
    if (class == MPI_SUCCESS) class = check_result(comm, "MPI_Comm_split", newcomm, "newcomm");
    if (class != MPI_SUCCESS) return class;
    if (color < 0 && color != MPI_UNDEFINED) return raise_on(comm, "MPI_Comm_split", MPI_ERR_ARG, "colour %d", color);
    struct engine_call entry = {.kind = ENGINE_SPLIT, .order = key};
    entry.colour = color == MPI_UNDEFINED ? ENGINE_NO_COLOUR : color;
    return make_communicator(comm, "MPI_Comm_split", &entry, newcomm);
}

int MPI_Comm_free(MPI_Comm *comm) {
    NOTE_CALLER();
    const char *call = "MPI_Comm_free";
    struct communicator *own;
    check_running(call);
    int class = check_result(MPI_COMM_WORLD, call, comm, "comm");
    if (class == MPI_SUCCESS) class = check_comm(*comm, call, &own);
    if (class != MPI_SUCCESS) return class;
    if (own->place <= ENGINE_SELF) return raise_on(*comm, call, MPI_ERR_COMM, "%s can't be freed", own->name);
    class = delete_values(*comm, call);
    if (class != MPI_SUCCESS) return class;
    explored_freed(own->place);
    drop_communicator(*comm);
    *comm = MPI_COMM_NULL;
    return MPI_SUCCESS;
}

int MPI_Comm_get_name(MPI_Comm comm, char *comm_name, int *resultlen) {
    NOTE_CALLER();
    struct communicator *own;
    check_running("MPI_Comm_get_name");
    int class = check_comm(comm, "MPI_Comm_get_name", &own);
    if (class == MPI_SUCCESS) class = check_result(comm, "MPI_Comm_get_name", comm_name, "comm_name");
    if (class == MPI_SUCCESS) class = check_result(comm, "MPI_Comm_get_name", resultlen, "resultlen");
    if (class == MPI_SUCCESS) *resultlen = copy_name(comm_name, own->name);
    return class;
}

int MPI_Comm_set_name(MPI_Comm comm, const char *comm_name) {
    NOTE_CALLER();
    struct communicator *own;
    check_running("MPI_Comm_set_name");
    int class = check_comm(comm, "MPI_Comm_set_name", &own);
    if (class == MPI_SUCCESS) class = check_result(comm, "MPI_Comm_set_name", comm_name, "comm_name");
    if (class == MPI_SUCCESS) copy_name(own->name, comm_name);
    return class;
}

/* Handles as Fortran has them (17.2.4): the low halves of their numbers, which name what lives now. */
MPI_Fint MPI_Comm_c2f(MPI_Comm comm) {
    NOTE_CALLER();
    return (MPI_Fint)(intptr_t)comm;
}
MPI_Comm MPI_Comm_f2c(MPI_Fint comm) {
    NOTE_CALLER();
    int64_t number = table_number(&communicators, (uint32_t)comm);
    return (MPI_Comm)(intptr_t)(number == 0 ? comm : number);
}
