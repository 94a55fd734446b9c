/* Datagrams for engines that aren't there yet: see worlds.h. The oldest gives its room to a new one: what is lost so
 * goes again. */
#include "addresses.h"
#include "worlds.h"

#include <stdlib.h>
#include <string.h>

enum { MOST_KEPT = 128 };

struct kept {
    uint32_t address;
    uint16_t port;
    size_t len; /* 0: it was handed out */
    unsigned char bytes[ENGINE_LONGEST_DATAGRAM];
};

static struct kept *kept;
/* So many were ever kept: the next one goes to this place, modulo their number. */
static size_t count;

void keep_datagram(uint32_t address, uint16_t port, const unsigned char *bytes, size_t len) {
    if (kept == NULL) kept = calloc(MOST_KEPT, sizeof *kept);
    if (kept == NULL || len > ENGINE_LONGEST_DATAGRAM) return;
    struct kept *own = &kept[count++ % MOST_KEPT];
    own->address = address;
    own->port = port;
    own->len = len;
    memcpy(own->bytes, bytes, len);
}

void hand_kept(uint64_t job, datagram_taker *taker) {
    for (size_t at = 0; kept != NULL && at < MOST_KEPT; at++) {
        struct kept *own = &kept[(count + at) % MOST_KEPT];
        if (own->len == 0 || !is_of_job(own->bytes, own->len, job)) continue;
        taker(own->address, own->port, own->bytes, own->len);
        own->len = 0;
    }
}

void drop_kept(void) {
    free(kept);
    kept = NULL;
    count = 0;
}
