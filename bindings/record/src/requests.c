/* Requests that the program has: see record.h. */
#include "record.h"

#include <stdlib.h>
#include <string.h>

static struct request *requests;
static int request_count, request_room;
static long names;

long new_name(void) { return ++names; }

struct request *add_request(MPI_Request handle, enum request_kind kind, long name) {
    if (request_count == request_room) {
        request_room = 2 * request_room + 64;
        requests = realloc(requests, (size_t)request_room * sizeof *requests);
        if (requests == NULL) abort();
    }
    struct request *it = &requests[request_count++];
    *it = (struct request){.handle = handle, .name = name, .kind = kind, .is_active = true};
    return it;
}

/* The active request of a handle, from a place on. */
static struct request *find(MPI_Request handle, int from) {
    if (handle == MPI_REQUEST_NULL) return NULL;
    for (int i = from; i < request_count; i++)
        if (requests[i].handle == handle && requests[i].is_active) return &requests[i];
    return NULL;
}

struct request *active_request(const MPI_Request *list, int place) {
    struct request *it = find(list[place], 0);
    for (int before = 0; before < place && it != NULL; before++)
        if (list[before] == list[place]) it = find(list[place], (int)(it - requests) + 1);
    return it;
}

struct request *any_request(MPI_Request handle) {
    for (int i = 0; i < request_count; i++)
        if (requests[i].handle == handle) return &requests[i];
    return NULL;
}

void remove_request(struct request *it) {
    const int place = (int)(it - requests);
    memmove(it, it + 1, (size_t)(request_count - place - 1) * sizeof *it);
    request_count--;
}

void write_taken(long name, const MPI_Status *status) {
    int bytes = 0;
    PMPI_Get_count(status, MPI_BYTE, &bytes);
    write_line("took %ld %s %s %d", name, rank_word(status->MPI_SOURCE), tag_word(status->MPI_TAG), bytes);
}

void end_request(MPI_Request handle, const MPI_Status *status) {
    struct request *it = find(handle, 0);
    int is_cancelled = 0;
    if (it == NULL) return;
    if (it->kind == OF_RECEIVE && status != NULL) {
        PMPI_Test_cancelled(status, &is_cancelled);
        if (is_cancelled) write_line("cancelled %ld", it->name);
        else write_taken(it->name, status);
    }
    if (it->is_persistent) it->is_active = false;
    else remove_request(it);
}

MPI_Request *copied(int count, const MPI_Request *list) {
    MPI_Request *copy = malloc((size_t)(count + 1) * sizeof *copy);
    if (copy == NULL) abort();
    if (count > 0) memcpy(copy, list, (size_t)count * sizeof *copy);
    return copy;
}

int MPI_Request_free(MPI_Request *request) {
    bool is_own = begin_call("MPI_Request_free");
    struct request *it = is_own ? any_request(*request) : NULL;
    if (it != NULL && it->is_active) write_line("free %ld", it->name);
    if (it != NULL) remove_request(it);
    return end_call(is_own, PMPI_Request_free(request));
}

int MPI_Cancel(MPI_Request *request) {
    bool is_own = begin_call("MPI_Cancel");
    const struct request *it = is_own ? active_request(request, 0) : NULL;
    if (it != NULL && it->kind == OF_RECEIVE) write_line("cancel %ld", it->name);
    else if (is_own) write_lack("the cancel of a send");
    return end_call(is_own, PMPI_Cancel(request));
}
