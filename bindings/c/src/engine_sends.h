/* How standard sends go (MPI 3.1, 3.4): what the static library `libc_exports.a` exports for that. Decided and proved
 * there (the crate unasked_sends). A receiver takes in what is sent to it at any of its calls, and keeps it until it is
 * received; so what was sent and isn't known to have been received is counted, and beyond a bound a standard send goes
 * as a synchronous one. That the record is the library's is told by engine_records.c. */
#ifndef KOMBAZILY_ENGINE_SENDS_H
#define KOMBAZILY_ENGINE_SENDS_H

#include <stdbool.h>
#include <stddef.h>
#include <stdint.h>

/* What was sent to a rank by sends that were at their ends at once, in bytes: each message counts its data and 64. All
 * zeros: nothing yet. */
struct send_counts {
    uint64_t sent;     /* all of it */
    uint64_t received; /* so much of what was sent first is known to have been received */
};

enum send_course {
    COURSE_AT_ONCE,    /* it is at its end at once, and counts */
    COURSE_ANNOUNCED,  /* its message doesn't go in one frame, so it waits for its receive */
    COURSE_SYNCHRONOUS /* it goes as a synchronous one, since too much would wait */
};

/* How many bytes may wait that aren't known to have been received, by the text of KOMBAZILY_UNASKED, if it is told:
 * whether the text is a number, in decimal digits, or `none`, which is the greatest one. Where none is told: 4 MiB. */
bool kombazily_unasked_bound(bool is_told, const uint8_t *text, size_t len, uint64_t *bound);

/* Begins a standard send of so many bytes of data, where frames have so many at most: a send_course. */
uint32_t kombazily_send_course(struct send_counts *counts, uint32_t frame, uint64_t bound, uint64_t bytes);

/* A message was received that waited for its receive, and when it was sent `sent` was this mark: so what was sent
 * before it has been received, too, by a rank that receives in the order in which it is sent to. */
void kombazily_was_received(struct send_counts *counts, uint64_t mark);

#endif
