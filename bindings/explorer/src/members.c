/* Communicators of ranks: see state.h. */
#include "state.h"

#include <string.h>

uint64_t mixed(uint64_t a, uint64_t b) {
    a ^= b + UINT64_C(0x9e3779b97f4a7c15) + (a << 6) + (a >> 2);
    return a * UINT64_C(0xff51afd7ed558ccd);
}

void learn_members(struct steps *s, int rank, uint32_t place, uint64_t name) {
    struct rank *own = &s->ranks[rank];
    while ((uint32_t)own->members_count <= place) {
        own->members = room_for(own->members, (size_t)own->members_count + 1, sizeof *own->members);
        memset(&own->members[own->members_count++], 0, sizeof *own->members);
    }
    struct members *it = &own->members[place];
    const struct engine_answer answer =
        ask_rank(s, rank, (struct engine_call){.kind = ENGINE_MEMBERS, .communicator = place});
    *it = (struct members){.is_made = true, .name = name, .size = (int)answer.fact};
    it->of = room_for(NULL, answer.fact, sizeof *it->of);
    engines_take(s->engines, rank, (uint8_t *)it->of, answer.fact * sizeof *it->of);
    for (int i = 0; i < it->size; i++)
        if (it->of[i] == rank) it->rank = i;
}

struct members *members_of(struct steps *s, int rank, uint32_t place) {
    struct rank *own = &s->ranks[rank];
    bool is_there = place < (uint32_t)own->members_count && own->members[place].is_made;
    return is_there ? &own->members[place] : NULL;
}

int world_rank(struct steps *s, int rank, uint32_t place, int32_t member) {
    const struct members *it = members_of(s, rank, place);
    return it != NULL && member >= 0 && member < it->size ? it->of[member] : -1;
}

uint32_t entered_by(const struct rank *own, uint64_t name) {
    for (int i = 0; i < own->members_count; i++)
        if (own->members[i].is_made && own->members[i].name == name) return own->members[i].entered;
    for (int i = 0; i < own->series_count; i++)
        if (own->series[i].name == name) return own->series[i].entered;
    return 0;
}

uint64_t series_name(const struct members *of, uint32_t persistent) { return mixed(of->name, ~(uint64_t)persistent); }

struct series *series_of(struct rank *own, uint64_t name) {
    for (int i = 0; i < own->series_count; i++)
        if (own->series[i].name == name) return &own->series[i];
    own->series = room_for(own->series, (size_t)own->series_count + 1, sizeof *own->series);
    own->series[own->series_count] = (struct series){.name = name};
    return &own->series[own->series_count++];
}
