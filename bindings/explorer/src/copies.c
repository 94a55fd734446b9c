/* Copies of communicators that don't wait (MPI 3.1, 6.4.2): the engines make one once all members have asked for it.
 * See state.h. */
#include "state.h"

/* The copy that a rank asked for as this collective of the communicator of this name, or NULL. */
static struct operation *copy_of(struct steps *s, int rank, uint64_t name, uint32_t entry) {
    struct rank *own = &s->ranks[rank];
    for (int key = 0; key < own->operation_count; key++) {
        struct operation *it = &own->operations[key];
        const struct plan *plan = it->state == OP_COPYING ? plan_of(own, it->plan) : NULL;
        const struct members *of = plan == NULL ? NULL : members_of(s, rank, plan->communicator);
        if (of != NULL && of->name == name && plan->entry == entry) return it;
    }
    return NULL;
}

bool has_copies(const struct rank *own, uint32_t communicator, bool any) {
    for (int key = 0; key < own->operation_count; key++) {
        const struct operation *it = &own->operations[key];
        if (it->state == OP_COPYING && (any || it->call.communicator == communicator)) return true;
    }
    return false;
}

/* Whether all members have asked for it, and no engine of theirs is in another call. */
static bool are_ready(struct steps *s, const struct members *of, uint32_t entry, struct operation *copies[MOST_RANKS]) {
    for (int i = 0; i < of->size; i++) {
        copies[i] = copy_of(s, of->of[i], of->name, entry);
        if (copies[i] == NULL || s->ranks[of->of[i]].is_in_engine) return false;
    }
    return true;
}

/* Asks the engine of a member for the end of its copy: whether it is there. */
static bool finish_copy(struct steps *s, int rank, uint64_t name, struct operation *it, struct engine_answer *answer) {
    const struct engine_call finish = {.kind = ENGINE_FINISH};
    if (answer->kind == ENGINE_BLOCKED || answer->kind == ENGINE_PENDING) call_rank(s, rank, &finish, NULL, 0, answer);
    if (answer->kind == ENGINE_PENDING) return false;
    it->state = answer->kind == ENGINE_LEFT && answer->number == 0 ? OP_COPIED : OP_FAILED;
    it->number = answer->number;
    it->made = answer->communicator;
    if (it->state == OP_COPIED) {
        learn_members(s, rank, it->made, name);
        s->ranks[rank].members[it->made].made_at = it->place;
    }
    return true;
}

static void make_copy(struct steps *s, const struct members *of, uint32_t entry, struct operation *copies[MOST_RANKS]) {
    struct engine_answer answers[MOST_RANKS];
    const int size = of->size;
    const uint64_t name = mixed(mixed(of->name, entry), of->of[0]);
    int ranks[MOST_RANKS];
    for (int i = 0; i < size; i++) {
        const struct engine_call copy = {.kind = ENGINE_DUP, .communicator = copies[i]->call.communicator};
        ranks[i] = of->of[i];
        call_rank(s, ranks[i], &copy, NULL, 0, &answers[i]);
    }
    for (int left = size; left > 0;) {
        engines_settle(s->engines);
        for (int i = 0; i < size; i++)
            if (copies[i]->state == OP_COPYING && finish_copy(s, ranks[i], name, copies[i], &answers[i])) left--;
    }
}

bool make_copies(struct steps *s) {
    bool has_made = false;
    for (int rank = 0; rank < s->options.size; rank++) {
        struct rank *own = &s->ranks[rank];
        for (int key = 0; key < own->operation_count; key++) {
            const struct operation *it = &own->operations[key];
            const struct plan *plan = it->state == OP_COPYING ? plan_of(own, it->plan) : NULL;
            const struct members *of = plan == NULL ? NULL : members_of(s, rank, plan->communicator);
            struct operation *copies[MOST_RANKS];
            if (of == NULL || !are_ready(s, of, plan->entry, copies)) continue;
            make_copy(s, of, plan->entry, copies);
            has_made = true;
        }
    }
    return has_made;
}
