/* Calls that end requests: one, any, all or some of a list (MPI 3.1, 3.7.3 and 3.7.5). */
#include "errors.h"
#include "explored.h"
#include "internal.h"
#include "wait_lines.h"

#include <string.h>

/* Ends a request that is at its end: its status, and 0 or the class of its failure. */
static int finish_request(const char *call, MPI_Request *handle, struct request *request, MPI_Status *status) {
    char cause[LONGEST_CAUSE];
    int code = tell_end(request, cause);
    put_status(status, &request->end);
    int class = request->number == 0 ? raise_code(call, code) : raise_in(request->comm, call, code, "%s", cause);
    close_request(handle);
    if (has_freed()) settle_freed();
    return class;
}

/* ---- one request ---- */

static int check_flag(const char *call, const int *flag) { return check_result(MPI_COMM_WORLD, call, flag, "flag"); }

int MPI_Wait(MPI_Request *request, MPI_Status *status) {
    NOTE_CALLER();
    static const char call[] = "MPI_Wait";
    struct request *found;
    check_running(call);
    int class = check_request(call, request, &found);
    if (class != 0) return class;
    found = active_of(*request);
    if (found == NULL) {
        put_empty(status);
        return MPI_SUCCESS;
    }
    await_request(found);
    return finish_request(call, request, found, status);
}

int MPI_Test(MPI_Request *request, int *flag, MPI_Status *status) {
    NOTE_CALLER();
    static const char call[] = "MPI_Test";
    struct request *found;
    check_running(call);
    int class = check_request(call, request, &found);
    if (class == 0) class = check_flag(call, flag);
    if (class != 0) return class;
    progress();
    found = active_of(*request);
    *flag = found == NULL || (is_explored ? explored_test(1, request) : is_at_end(found));
    if (found == NULL) put_empty(status);
    if (found == NULL || !*flag) return MPI_SUCCESS;
    return finish_request(call, request, found, status);
}

/* ---- lists ---- */

/* That each of a list is a request or null, and that the list is one. */
static int check_list(const char *call, int count, const MPI_Request list[]) {
    check_running(call);
    if (count < 0) return raise_on(MPI_COMM_WORLD, call, MPI_ERR_ARG, "a list of %d requests", count);
    if (count > 0 && list == NULL) return raise_on(MPI_COMM_WORLD, call, MPI_ERR_ARG, "the list of requests is NULL");
    for (int i = 0; i < count; i++) {
        struct request *found;
        int class = check_request(call, &list[i], &found);
        if (class != 0) return class;
    }
    return MPI_SUCCESS;
}

/* That such a list has somewhere to put the place of what is at its end; how many are, and their places. */
static int check_index(const char *call, int count, const MPI_Request list[], const int *index) {
    int class = check_list(call, count, list);
    return class == 0 ? check_result(MPI_COMM_WORLD, call, index, "index") : class;
}
static int check_some(const char *call, int count, const MPI_Request list[], const int *outcount, const int *indices) {
    int class = check_list(call, count, list);
    if (class == 0) class = check_result(MPI_COMM_WORLD, call, outcount, "outcount");
    return class == 0 && count > 0 ? check_result(MPI_COMM_WORLD, call, indices, "array_of_indices") : class;
}

/* The place of one of a list that is at its end, -1 where none is, or MPI_UNDEFINED where none is active. Of several it
 * is the one that was begun first: so each has its turn, however often others are begun anew. The explorer says which
 * one it is, and none where the call doesn't wait. */
static int oldest_at_end(int count, const MPI_Request list[], bool waits) {
    int found = MPI_UNDEFINED;
    uint64_t age = 0;
    if (is_explored) return explored_any(waits, count, list);
    for (int i = 0; i < count; i++) {
        struct request *it = active_of(list[i]);
        if (it == NULL || (found >= 0 && it->age >= age)) continue;
        if (found == MPI_UNDEFINED) found = -1;
        if (!is_at_end(it)) continue;
        found = i;
        age = it->age;
    }
    return found;
}

/* Whether all of a list are at their ends, or null. */
static bool are_all_at_end(int count, const MPI_Request list[]) {
    if (is_explored) return explored_test(count, list);
    for (int i = 0; i < count; i++) {
        struct request *it = active_of(list[i]);
        if (it != NULL && !is_at_end(it)) return false;
    }
    return true;
}

/* How many of a list are at their ends. The explorer says which, and none where the call doesn't wait. */
static int count_at_end(int count, const MPI_Request list[], bool waits) {
    int found = 0;
    if (is_explored) return explored_some(waits, count, list);
    for (int i = 0; i < count; i++) {
        struct request *it = active_of(list[i]);
        if (it != NULL && is_at_end(it)) found++;
    }
    return found;
}

static bool is_none_active(int count, const MPI_Request list[]) {
    for (int i = 0; i < count; i++)
        if (active_of(list[i]) != NULL) return false;
    return true;
}

/* Answers a Waitany or a Testany of which this is the place. */
static int finish_any(const char *call, int place, MPI_Request list[], int *index, MPI_Status *status) {
    *index = place;
    if (place != MPI_UNDEFINED) return finish_request(call, &list[place], request_of(list[place]), status);
    put_empty(status);
    return MPI_SUCCESS;
}

int MPI_Waitany(int count, MPI_Request array_of_requests[], int *index, MPI_Status *status) {
    NOTE_CALLER();
    static const char call[] = "MPI_Waitany";
    int class = check_index(call, count, array_of_requests, index);
    if (class != 0) return class;
    int place;
    begin_wait(&(struct wait){.kind = WAIT_ANY, .list = array_of_requests, .count = count});
    while ((place = oldest_at_end(count, array_of_requests, true)) == -1) progress_wait();
    end_wait();
    return finish_any(call, place, array_of_requests, index, status);
}

int MPI_Testany(int count, MPI_Request array_of_requests[], int *index, int *flag, MPI_Status *status) {
    NOTE_CALLER();
    static const char call[] = "MPI_Testany";
    int class = check_index(call, count, array_of_requests, index);
    if (class == 0) class = check_flag(call, flag);
    if (class != 0) return class;
    progress();
    int place = oldest_at_end(count, array_of_requests, false);
    *flag = place != -1;
    *index = MPI_UNDEFINED;
    return *flag ? finish_any(call, place, array_of_requests, index, status) : MPI_SUCCESS;
}

/* The first failure of a list: where it is, or -1; how it is told, and to whom. */
struct failure {
    int place;
    char cause[LONGEST_CAUSE];
    struct communicator *told;
};

/* Tells those of a list that are at their ends of it. */
static struct failure tell_ends(int count, const MPI_Request list[]) {
    struct failure first = {.place = -1};
    char cause[LONGEST_CAUSE];
    for (int i = 0; i < count; i++) {
        struct request *it = active_of(list[i]);
        if (it == NULL || !is_told(it) || tell_end(it, cause) == MPI_SUCCESS || first.place >= 0) continue;
        first.place = i;
        memcpy(first.cause, cause, sizeof cause);
        first.told = it->comm == NULL ? NULL : hold_communicator(it->comm);
    }
    return first;
}

/* Ends those of a list that are at their ends: a look moves requests on, so they may be more than the look before
 * found. `outcount` and `indices` take how many and their places, where they are there; statuses go to the places of
 * their requests without them, else one behind the other. Where one failed, each status says what became of it, and the
 * answer is MPI_ERR_IN_STATUS. */
static int finish_list(const char *call, int count, MPI_Request list[], int *outcount, int indices[],
                       MPI_Status statuses[]) {
    const struct failure first = tell_ends(count, list);
    int done = 0;
    for (int i = 0; i < count; i++) {
        struct request *it = active_of(list[i]);
        if (indices != NULL && (it == NULL || !it->is_settled)) continue;
        MPI_Status *status =
            statuses == MPI_STATUSES_IGNORE ? MPI_STATUS_IGNORE : &statuses[indices == NULL ? i : done];
        if (indices != NULL) indices[done] = i;
        done++;
        if (it == NULL) put_empty(status);
        else put_status(status, &it->end);
        if (first.place >= 0 && status != MPI_STATUS_IGNORE) status->MPI_ERROR = it == NULL ? MPI_SUCCESS : it->code;
        if (it != NULL) close_request(&list[i]);
    }
    if (outcount != NULL) *outcount = done;
    if (has_freed()) settle_freed();
    if (first.place < 0) return MPI_SUCCESS;
    int class = raise_in(first.told, call, MPI_ERR_IN_STATUS, "request %d of %d: %s", first.place, count, first.cause);
    if (first.told != NULL) release_communicator(first.told);
    return class;
}

/* Waits until all of a list are at their ends. */
static void await_all(int count, const MPI_Request list[]) {
    if (is_explored && explored_wait_all(count, list)) return;
    for (int i = 0; i < count; i++) {
        struct request *it = active_of(list[i]);
        if (it == NULL || is_at_end(it)) continue;
        begin_wait(&(struct wait){.kind = WAIT_ALL, .list = list, .count = count});
        do progress_wait();
        while (!is_at_end(it));
        end_wait();
    }
    progress_out();
}

int MPI_Waitall(int count, MPI_Request array_of_requests[], MPI_Status array_of_statuses[]) {
    NOTE_CALLER();
    static const char call[] = "MPI_Waitall";
    int class = check_list(call, count, array_of_requests);
    if (class != 0) return class;
    await_all(count, array_of_requests);
    return finish_list(call, count, array_of_requests, NULL, NULL, array_of_statuses);
}

int MPI_Testall(int count, MPI_Request array_of_requests[], int *flag, MPI_Status array_of_statuses[]) {
    NOTE_CALLER();
    static const char call[] = "MPI_Testall";
    int class = check_list(call, count, array_of_requests);
    if (class == 0) class = check_flag(call, flag);
    if (class != 0) return class;
    progress();
    *flag = are_all_at_end(count, array_of_requests);
    return *flag ? finish_list(call, count, array_of_requests, NULL, NULL, array_of_statuses) : MPI_SUCCESS;
}

int MPI_Waitsome(int incount, MPI_Request array_of_requests[], int *outcount, int array_of_indices[],
                 MPI_Status array_of_statuses[]) {
    NOTE_CALLER();
    static const char call[] = "MPI_Waitsome";
    int class = check_some(call, incount, array_of_requests, outcount, array_of_indices);
    if (class != 0) return class;
    *outcount = MPI_UNDEFINED;
    if (is_none_active(incount, array_of_requests)) return MPI_SUCCESS;
    begin_wait(&(struct wait){.kind = WAIT_ANY, .list = array_of_requests, .count = incount});
    progress();
    while (count_at_end(incount, array_of_requests, true) == 0) progress_wait();
    end_wait();
    return finish_list(call, incount, array_of_requests, outcount, array_of_indices, array_of_statuses);
}

int MPI_Testsome(int incount, MPI_Request array_of_requests[], int *outcount, int array_of_indices[],
                 MPI_Status array_of_statuses[]) {
    NOTE_CALLER();
    static const char call[] = "MPI_Testsome";
    int class = check_some(call, incount, array_of_requests, outcount, array_of_indices);
    if (class != 0) return class;
    *outcount = MPI_UNDEFINED;
    if (is_none_active(incount, array_of_requests)) return MPI_SUCCESS;
    progress();
    (void)count_at_end(incount, array_of_requests, false);
    return finish_list(call, incount, array_of_requests, outcount, array_of_indices, array_of_statuses);
}
