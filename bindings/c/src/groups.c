/* Groups (MPI 3.1, 6.3). */
#include "groups.h"

#include "engine_groups.h"
#include "errors.h"
#include "group_lists.h"
#include "internal.h"
#include "table.h"

#include <stdlib.h>
#include <string.h>

/* A group: its members in order. */
struct group {
    int size;
    uint16_t list[];
};

/* All groups but MPI_GROUP_EMPTY, whose number is that of the first place; their places begin behind it. */
static struct group empty;
static struct table groups = TABLE_OF(KIND_GROUP);

static struct group *group_of(MPI_Group handle) {
    if (handle == MPI_GROUP_EMPTY) return &empty;
    return table_find(&groups, (intptr_t)handle);
}

static struct members members_of(const struct group *group) { return (struct members){group->list, group->size}; }

/* The own place in a group, or MPI_UNDEFINED. */
static int own_place(const struct group *group) {
    int place = place_in(members_of(group), (uint16_t)process.rank);
    return place < 0 ? MPI_UNDEFINED : place;
}

void close_groups(void) {
    for (int place = 1; place < groups.count; place++) free(groups.places[place].object);
    table_free(&groups);
}

int add_group(MPI_Comm comm, const char *call, const uint16_t *members, int size, MPI_Group *group) {
    *group = MPI_GROUP_EMPTY;
    if (size == 0) return MPI_SUCCESS;
    struct group *made = malloc(sizeof *made + (size_t)size * sizeof *members);
    int64_t number = 0;
    if (made != NULL && (groups.count > 0 || table_add(&groups, &empty) != 0)) number = table_add(&groups, made);
    if (number == 0) {
        free(made);
        *group = MPI_GROUP_NULL;
        return raise_on(comm, call, MPI_ERR_NO_MEM, "no memory for a group");
    }
    made->size = size;
    memcpy(made->list, members, (size_t)size * sizeof *members);
    *group = (MPI_Group)(intptr_t)number;
    return MPI_SUCCESS;
}

static int check_group(const char *call, MPI_Group handle, struct group **found) {
    check_running(call);
    *found = group_of(handle);
    if (*found != NULL) return MPI_SUCCESS;
    const char *cause = handle == MPI_GROUP_NULL ? "the group is MPI_GROUP_NULL" : "no such group";
    return raise_on(MPI_COMM_WORLD, call, MPI_ERR_GROUP, "%s", cause);
}

int check_members(const char *call, MPI_Group group, struct members *members) {
    struct group *own;
    int class = check_group(call, group, &own);
    if (class == MPI_SUCCESS) *members = members_of(own);
    return class;
}

int MPI_Group_size(MPI_Group group, int *size) {
    NOTE_CALLER();
    struct group *own;
    int class = check_group("MPI_Group_size", group, &own);
    if (class == MPI_SUCCESS) class = check_result(MPI_COMM_WORLD, "MPI_Group_size", size, "size");
    if (class == MPI_SUCCESS) *size = own->size;
    return class;
}

int MPI_Group_rank(MPI_Group group, int *rank) {
    NOTE_CALLER();
    struct group *own;
    int class = check_group("MPI_Group_rank", group, &own);
    if (class == MPI_SUCCESS) class = check_result(MPI_COMM_WORLD, "MPI_Group_rank", rank, "rank");
    if (class == MPI_SUCCESS) *rank = own_place(own);
    return class;
}

int MPI_Group_translate_ranks(MPI_Group group1, int n, const int ranks1[], MPI_Group group2, int ranks2[]) {
    NOTE_CALLER();
    const char *call = "MPI_Group_translate_ranks";
    struct group *first, *second;
    int class = check_group(call, group1, &first);
    if (class == MPI_SUCCESS) class = check_group(call, group2, &second);
    if (class == MPI_SUCCESS) class = check_count(MPI_COMM_WORLD, call, n);
    if (class == MPI_SUCCESS && n > 0) class = check_result(MPI_COMM_WORLD, call, ranks1, "ranks1");
    if (class == MPI_SUCCESS && n > 0) class = check_result(MPI_COMM_WORLD, call, ranks2, "ranks2");
    if (class != MPI_SUCCESS) return class;
    for (int at = 0; at < n; at++) {
        int rank = ranks1[at];
        if (rank != MPI_PROC_NULL && (rank < 0 || rank >= first->size))
            return raise_on(MPI_COMM_WORLD, call, MPI_ERR_RANK, "rank %d of a group of %d", rank, first->size);
    }
    for (int at = 0; at < n; at++) {
        int rank = ranks1[at];
        int place = rank == MPI_PROC_NULL ? MPI_PROC_NULL : place_in(members_of(second), first->list[rank]);
        ranks2[at] = place == -1 ? MPI_UNDEFINED : place;
    }
    return MPI_SUCCESS;
}

int MPI_Group_compare(MPI_Group group1, MPI_Group group2, int *result) {
    NOTE_CALLER();
    const char *call = "MPI_Group_compare";
    struct group *first, *second;
    int class = check_group(call, group1, &first);
    if (class == MPI_SUCCESS) class = check_group(call, group2, &second);
    if (class == MPI_SUCCESS) class = check_result(MPI_COMM_WORLD, call, result, "result");
    if (class != MPI_SUCCESS) return class;
    struct members one = members_of(first), other = members_of(second);
    *result = are_same_lists(one, other) ? MPI_IDENT : are_same_members(one, other) ? MPI_SIMILAR : MPI_UNEQUAL;
    return MPI_SUCCESS;
}

/* ---- groups that are made of others ---- */

static int combine(const char *call, MPI_Group group1, MPI_Group group2, enum group_of_two kind, MPI_Group *newgroup) {
    struct group *first, *second;
    int class = check_group(call, group1, &first);
    if (class == MPI_SUCCESS) class = check_group(call, group2, &second);
    if (class == MPI_SUCCESS) class = check_result(MPI_COMM_WORLD, call, newgroup, "newgroup");
    if (class != MPI_SUCCESS) return class;
    const size_t first_size = (size_t)first->size, second_size = (size_t)second->size;
    uint16_t *made = calloc(first_size + second_size + 1, sizeof *made);
    if (made == NULL) return raise_on(MPI_COMM_WORLD, call, MPI_ERR_NO_MEM, "no memory for a group");
    uint64_t size = 0;
    uint32_t number = kombazily_group_of_two(kind, first->list, first_size, second->list, second_size, made,
                                             first_size + second_size, &size);
    class = number == 0 ? add_group(MPI_COMM_WORLD, call, made, (int)size, newgroup)
                        : raise_number(MPI_COMM_WORLD, call, number);
    free(made);
    return class;
}

int MPI_Group_union(MPI_Group group1, MPI_Group group2, MPI_Group *newgroup) {
    NOTE_CALLER();
    return combine("MPI_Group_union", group1, group2, GROUP_UNION, newgroup);
}

int MPI_Group_intersection(MPI_Group group1, MPI_Group group2, MPI_Group *newgroup) {
    NOTE_CALLER();
    return combine("MPI_Group_intersection", group1, group2, GROUP_INTERSECTION, newgroup);
}

int MPI_Group_difference(MPI_Group group1, MPI_Group group2, MPI_Group *newgroup) {
    NOTE_CALLER();
    return combine("MPI_Group_difference", group1, group2, GROUP_DIFFERENCE, newgroup);
}

/* Tells why a list of ranks was refused. */
static int tell_refused(const char *call, const struct group *own, const int ranks[], int n, uint32_t number) {
    const int bad = number == GROUP_NO_MEMORY ? n : first_bad_place(members_of(own), ranks, n);
    if (bad == n) return raise_number(MPI_COMM_WORLD, call, number);
    if (ranks[bad] >= 0 && ranks[bad] < own->size)
        return raise_on(MPI_COMM_WORLD, call, MPI_ERR_RANK, "rank %d twice in the list", ranks[bad]);
    return raise_on(MPI_COMM_WORLD, call, MPI_ERR_RANK, "rank %d of a group of %d", ranks[bad], own->size);
}

/* Makes a group of another one and a list of its ranks; what is no number of 16 bits is no rank of a group. */
static int choose_of(const char *call, const struct group *own, int n, const int ranks[], enum group_of_places kind,
                     MPI_Group *newgroup) {
    uint16_t *places = calloc((size_t)n + 1, sizeof *places), *made = calloc((size_t)own->size + 1, sizeof *made);
    uint64_t size = 0;
    uint32_t number = GROUP_NO_MEMORY;
    if (places != NULL && made != NULL) {
        for (int at = 0; at < n; at++)
            places[at] = ranks[at] < 0 || ranks[at] > UINT16_MAX ? UINT16_MAX : (uint16_t)ranks[at];
        number = kombazily_group_of_places(kind, own->list, (size_t)own->size, places, (size_t)n, made,
                                           (size_t)own->size, &size);
    }
    int class = number == 0 ? add_group(MPI_COMM_WORLD, call, made, (int)size, newgroup)
                            : tell_refused(call, own, ranks, n, number);
    free(places);
    free(made);
    return class;
}

static int choose(const char *call, MPI_Group group, int n, const int ranks[], enum group_of_places kind,
                  MPI_Group *newgroup) {
    struct group *own;
    int class = check_group(call, group, &own);
    if (class == MPI_SUCCESS) class = check_count(MPI_COMM_WORLD, call, n);
    if (class == MPI_SUCCESS && n > 0) class = check_result(MPI_COMM_WORLD, call, ranks, "ranks");
    if (class == MPI_SUCCESS) class = check_result(MPI_COMM_WORLD, call, newgroup, "newgroup");
    return class == MPI_SUCCESS ? choose_of(call, own, n, ranks, kind, newgroup) : class;
}

int MPI_Group_incl(MPI_Group group, int n, const int ranks[], MPI_Group *newgroup) {
    NOTE_CALLER();
    return choose("MPI_Group_incl", group, n, ranks, GROUP_INCL, newgroup);
}

int MPI_Group_excl(MPI_Group group, int n, const int ranks[], MPI_Group *newgroup) {
    NOTE_CALLER();
    return choose("MPI_Group_excl", group, n, ranks, GROUP_EXCL, newgroup);
}

/* Checks a range of ranks: a first and a last one of the group, and a stride that leads from the one to the other. */
static int check_range(const char *call, int size, const int range[3]) {
    const int first = range[0], last = range[1], stride = range[2];
    if (first < 0 || first >= size || last < 0 || last >= size)
        return raise_on(MPI_COMM_WORLD, call, MPI_ERR_RANK, "ranks %d to %d of a group of %d", first, last, size);
    if (stride == 0 || (first < last && stride < 0) || (first > last && stride > 0))
        return raise_on(MPI_COMM_WORLD, call, MPI_ERR_ARG, "ranks %d to %d by a stride of %d", first, last, stride);
    return MPI_SUCCESS;
}

/* Makes a group of another one and ranges of its ranks: of the list that they stand for (6.3.2). */
static int choose_ranges(const char *call, MPI_Group group, int n, int ranges[][3], enum group_of_places kind,
                         MPI_Group *newgroup) {
    struct group *own;
    int class = check_group(call, group, &own), count = 0;
    if (class == MPI_SUCCESS) class = check_count(MPI_COMM_WORLD, call, n);
    if (class == MPI_SUCCESS && n > 0) class = check_result(MPI_COMM_WORLD, call, ranges, "ranges");
    for (int at = 0; class == MPI_SUCCESS && at < n; at++) class = check_range(call, own->size, ranges[at]);
    if (class != MPI_SUCCESS) return class;
    /* One more than there are ranks: then one of them stands twice in the list, which is told. */
    int *ranks = calloc((size_t)own->size + 1, sizeof *ranks);
    if (ranks == NULL) return raise_on(MPI_COMM_WORLD, call, MPI_ERR_NO_MEM, "no memory for a group");
    for (int at = 0; at < n; at++) {
        const int steps = (ranges[at][1] - ranges[at][0]) / ranges[at][2];
        for (int step = 0; step <= steps && count <= own->size; step++)
            ranks[count++] = ranges[at][0] + step * ranges[at][2];
    }
    class = choose(call, group, count, ranks, kind, newgroup);
    free(ranks);
    return class;
}

int MPI_Group_range_incl(MPI_Group group, int n, int ranges[][3], MPI_Group *newgroup) {
    NOTE_CALLER();
    return choose_ranges("MPI_Group_range_incl", group, n, ranges, GROUP_INCL, newgroup);
}

int MPI_Group_range_excl(MPI_Group group, int n, int ranges[][3], MPI_Group *newgroup) {
    NOTE_CALLER();
    return choose_ranges("MPI_Group_range_excl", group, n, ranges, GROUP_EXCL, newgroup);
}

int MPI_Group_free(MPI_Group *group) {
    NOTE_CALLER();
    const char *call = "MPI_Group_free";
    struct group *own;
    check_running(call);
    int class = check_result(MPI_COMM_WORLD, call, group, "group");
    if (class == MPI_SUCCESS) class = check_group(call, *group, &own);
    if (class != MPI_SUCCESS) return class;
    /* MPI_GROUP_EMPTY may be what a call answered, so it may be freed; it stays. */
    if (own != &empty) free(table_remove(&groups, (intptr_t)*group));
    *group = MPI_GROUP_NULL;
    return MPI_SUCCESS;
}

/* Handles as Fortran has them (17.2.4). */
MPI_Fint MPI_Group_c2f(MPI_Group group) {
    NOTE_CALLER();
    return (MPI_Fint)(intptr_t)group;
}

MPI_Group MPI_Group_f2c(MPI_Fint group) {
    NOTE_CALLER();
    int64_t number = table_number(&groups, (uint32_t)group);
    return (MPI_Group)(intptr_t)(number == 0 ? group : number);
}
