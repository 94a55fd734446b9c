/* Ends of requests of a rank under the explorer: see explored.h. */
#include "explored.h"
#include "explored_plans.h"

#include <stdlib.h>
#include <string.h>

/* Whether the explorer knows this request by its number; any other one the rank makes of such requests. */
static bool is_of_engine(const struct request *request) {
    return request->kind == &send_kind || request->kind == &receive_kind;
}

bool is_told(struct request *request) {
    if (!is_explored || !is_of_engine(request)) return is_at_end(request);
    return request->is_ended && (request->other == NULL || request->other->is_ended);
}

struct explorer_entry explored_entry(struct request *request) {
    if (request == NULL) return (struct explorer_entry){EXPLORER_NULL, EXPLORER_ENDED};
    const struct request *other = request->other;
    const bool is_made = request->kind == &plan_kind || request->kind == &explored_copy_kind;
    const uint64_t ended = is_made ? EXPLORER_MADE : EXPLORER_ENDED;
    struct explorer_entry entry = {EXPLORER_ENDED, EXPLORER_ENDED};
    if (!is_of_engine(request)) entry.key = is_at_end(request) ? ended : EXPLORER_OPEN;
    else if (!request->is_ended) entry.key = request->own.key;
    if (other != NULL && !other->is_ended) entry.other = other->own.key;
    return entry;
}

/* ---- waits ---- */

static void wait_for(struct request *request) {
    if (!request->is_ended) {
        struct explorer_ask ask = {.kind = ASK_WAIT, .call.request = request->own};
        const struct engine_answer answer = explored_ask(&ask, NULL, NULL, NULL)->answer;
        explored_free_key(request->own.key);
        end_request(request, &answer);
    }
    if (request->other == NULL) return;
    wait_for(request->other);
    if (request->number == 0) request->number = request->other->number;
}

bool explored_wait(struct request *request) {
    if (!is_of_engine(request)) return false;
    wait_for(request);
    return true;
}

/* Asks of a list, until what is told doesn't hang on requests that the rank makes of others. */
static const struct explorer_answer *ask_list(enum explorer_ask_kind kind, int count, const MPI_Request list[],
                                              const uint32_t **places) {
    struct explorer_entry *entries = malloc((size_t)(count + 1) * sizeof *entries);
    const struct explorer_answer *answer;
    if (entries == NULL) explored_lose();
    do {
        for (int i = 0; i < count; i++) entries[i] = explored_entry(active_of(list[i]));
        struct explorer_ask ask = {.kind = kind, .count = (uint32_t)count};
        answer = explored_ask(&ask, entries, NULL, places);
    } while (answer->answer.fact == EXPLORER_AGAIN && kind != ASK_WAITALL);
    free(entries);
    return answer;
}

/* Ends those of a list that weren't at their ends, by their answers and data in a row. */
static void end_in_row(int count, const MPI_Request list[], const uint8_t *at) {
    for (int i = 0; i < count; i++) {
        struct request *request = active_of(list[i]);
        struct engine_answer answer;
        if (request == NULL || request->is_ended) continue;
        memcpy(&answer, at, sizeof answer);
        at += sizeof answer;
        explored_lend(at, &answer);
        at += answer.bytes;
        explored_free_key(request->own.key);
        end_request(request, &answer);
    }
}

bool explored_wait_all(int count, const MPI_Request list[]) {
    for (int i = 0; i < count; i++) {
        const struct request *request = active_of(list[i]);
        if (request != NULL && (request->other != NULL || !is_of_engine(request))) return false;
        for (int k = 0; k < i && request != NULL; k++)
            if (list[k] == list[i]) return false;
    }
    if (ask_list(ASK_WAITALL, count, list, NULL)->answer.bytes == 0) return true;
    uint8_t *all = explored_keep();
    end_in_row(count, list, all);
    free(all);
    return true;
}

/* ---- looks ---- */

bool explored_test(int count, const MPI_Request list[]) {
    if (ask_list(ASK_TEST, count, list, NULL)->answer.fact == 0) return false;
    for (int i = 0; i < count; i++)
        if (active_of(list[i]) != NULL) (void)await_request(active_of(list[i]));
    return true;
}

int explored_any(bool waits, int count, const MPI_Request list[]) {
    bool is_none_active = true;
    for (int i = 0; i < count; i++) is_none_active &= active_of(list[i]) == NULL;
    if (is_none_active) return MPI_UNDEFINED;
    const struct explorer_answer *answer = ask_list(waits ? ASK_WAITANY : ASK_TESTANY, count, list, NULL);
    if (answer->answer.fact == 0) return -1;
    int place = (int)answer->place;
    (void)await_request(active_of(list[place]));
    return place;
}

int explored_some(bool waits, int count, const MPI_Request list[]) {
    const uint32_t *places;
    int found = (int)ask_list(waits ? ASK_WAITSOME : ASK_TESTSOME, count, list, &places)->count;
    uint32_t *own = malloc((size_t)(found + 1) * sizeof *own);
    if (own == NULL) explored_lose();
    if (found > 0) memcpy(own, places, (size_t)found * sizeof *own);
    for (int i = 0; i < found; i++) (void)await_request(active_of(list[own[i]]));
    free(own);
    return found;
}

/* ---- what is left ---- */

uint32_t persistent_left(uint32_t *numbers, uint32_t room) {
    uint32_t count = 0;
    for (int place = 0; place < request_places(); place++) {
        const struct request *it = request_at(place);
        if (it == NULL || !it->is_inactive) continue;
        if (count < room) numbers[count] = (uint32_t)place;
        count++;
    }
    return count;
}

struct explorer_entry *explored_left(uint32_t *count) {
    struct explorer_entry *all = malloc((size_t)(request_places() + 1) * sizeof *all);
    if (all == NULL) explored_lose();
    *count = 0;
    for (int place = 0; place < request_places(); place++) {
        const struct request *it = request_at(place);
        if (it == NULL || it->is_inactive) continue;
        all[(*count)++] = (struct explorer_entry){it->is_ended       ? EXPLORER_ENDED
                                                  : is_of_engine(it) ? it->own.key
                                                                     : EXPLORER_OPEN,
                                                  it->kind == &plan_kind            ? plan_told(it->state)
                                                  : it->kind == &explored_copy_kind ? copy_told(it)
                                                                                    : EXPLORER_ENDED};
    }
    return all;
}
