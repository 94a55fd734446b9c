/* Requests of a record: see play.h. */
#include "play.h"

#include <stdio.h>
#include <stdlib.h>
#include <string.h>

static struct played *all;
static int played_count;

static void *need(void *made) {
    if (made == NULL) give_up("no memory for a request", "");
    return made;
}

struct played *request_of(const char *name) {
    const int own = number(name);
    if (own < 0) give_up("no such request: ", name);
    if (own >= played_count) {
        const int room = 2 * own + 16;
        all = need(realloc(all, (size_t)room * sizeof *all));
        memset(all + played_count, 0, (size_t)(room - played_count) * sizeof *all);
        played_count = room;
    }
    return &all[own];
}

void add_part(struct played *to, MPI_Request part, void *room) {
    to->parts = need(realloc(to->parts, (size_t)(to->count + 1) * sizeof *to->parts));
    to->rooms = need(realloc(to->rooms, (size_t)(to->count + 1) * sizeof *to->rooms));
    to->parts[to->count] = part;
    to->rooms[to->count++] = room;
}

static void drop(struct played *it) {
    for (int i = 0; i < it->count; i++) free(it->rooms[i]);
    free(it->parts);
    free(it->rooms);
    *it = (struct played){.count = 0};
}

/* The parts of these requests in a row, which the caller frees: how many. */
static MPI_Request *parts_of(char **names, int count, int *parts) {
    int total = 0;
    for (int i = 0; i < count; i++) total += request_of(names[i])->count;
    MPI_Request *row = need(malloc((size_t)(total + 1) * sizeof *row));
    *parts = 0;
    for (int i = 0; i < count; i++) {
        const struct played *it = request_of(names[i]);
        for (int k = 0; k < it->count; k++) row[(*parts)++] = it->parts[k];
    }
    return row;
}

/* All of these have ended. */
static void end_all(char **names, int count, const MPI_Status *statuses) {
    for (int i = 0, at = 0; i < count; i++) {
        struct played *it = request_of(names[i]);
        if (it->choice != 0 && it->count == 1) tell_choice(it->choice, &statuses[at]);
        at += it->count;
        drop(it);
    }
}

void wait_for(char **names, int count) {
    int parts;
    MPI_Request *row = parts_of(names, count, &parts);
    MPI_Status *statuses = need(calloc((size_t)parts + 1, sizeof *statuses));
    if (parts == 1) MPI_Wait(row, statuses);
    if (parts > 1) MPI_Waitall(parts, row, statuses);
    end_all(names, count, statuses);
    free(row);
    free(statuses);
}

void wait_for_any(char **names, int count) {
    int parts, place;
    MPI_Request *row = parts_of(names, count, &parts);
    if (parts > 0) MPI_Waitany(parts, row, &place, MPI_STATUS_IGNORE);
    free(row);
}

bool test_for(char **names, int count) {
    int parts, is_there = 1;
    MPI_Request *row = parts_of(names, count, &parts);
    if (parts > 0) MPI_Testall(parts, row, &is_there, MPI_STATUSES_IGNORE);
    free(row);
    return is_there != 0;
}

void cancel(const char *name) {
    const struct played *it = request_of(name);
    for (int i = 0; i < it->count; i++) MPI_Cancel(&it->parts[i]);
}

/* What it writes to stays. */
void free_request(const char *name) {
    struct played *it = request_of(name);
    for (int i = 0; i < it->count; i++) MPI_Request_free(&it->parts[i]);
    it->count = 0;
}

void tell_choice(long choice, const MPI_Status *status) {
    int is_cancelled = 0;
    if (set.pinned || choice == 0) return;
    MPI_Test_cancelled(status, &is_cancelled);
    if (!is_cancelled) printf("choice %ld took %d\n", choice, status->MPI_SOURCE);
}
