/* What waits unasked: see unasked.h. */
#include "unasked.h"

#include "addresses.h"

#include <stdlib.h>
#include <string.h>

static uint64_t bound;

/* By the ranks of MPI_COMM_WORLD; and those of one before the send that began last. */
static struct send_counts counts[MOST_RANKS], before;

bool open_unasked(void) {
    const char *told = getenv("KOMBAZILY_UNASKED");
    const char *text = told == NULL ? "" : told;
    return kombazily_unasked_bound(told != NULL, (const uint8_t *)text, strlen(text), &bound);
}

enum send_course begin_unasked(int rank, size_t len) {
    before = counts[rank];
    return (enum send_course)kombazily_send_course(&counts[rank], process.frame, bound, len);
}

void take_back_unasked(int rank) { counts[rank] = before; }

void mark_send(struct request *request, int rank) {
    request->tells = true;
    request->target = rank;
    request->mark = counts[rank].sent;
}

void note_received(const struct request *request) { kombazily_was_received(&counts[request->target], request->mark); }

uint64_t unasked_bytes(int rank) { return counts[rank].sent - counts[rank].received; }
