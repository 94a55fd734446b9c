/* Whether all ranks of a job wait, and nothing moves: so a rank tells that from others that compute for long. Each rank
 * says by a byte of a file that it has begun, and whether it waits in vain. Its launcher makes the file, which has no
 * name, and tells where it is (KOMBAZILY_STANDSTILL); it says there which ranks have ended and never began. A rank
 * whose process ended otherwise than by MPI_Finalize counts as one that waits. */
#ifndef KOMBAZILY_STANDSTILL_H
#define KOMBAZILY_STANDSTILL_H

#include <stdbool.h>
#include <stdint.h>

/* At the start of the process, once its place is known: whether all ranks are at one address. Where a patience is told,
 * a rank gives up by itself, unless KOMBAZILY_TOGETHER is 1: then all do, where all wait. */
void standstill_open(bool is_together);

/* Behind that, once others reach this rank: waits until all ranks have come so far, but not for long. What is sent to
 * one that nobody reaches yet is lost, and goes again only while its sender is in a call. */
void await_begun(void);

/* Whether a rank has begun, so that what is sent to its port comes to nobody else; where there is no such file that
 * isn't known, and the answer is yes. */
bool is_there(int rank);

/* To be asked by a rank that waits, and that has heard nothing for so many milliseconds: whether all ranks of the job
 * wait in vain. Where there is no such file nobody knows, and the answer is yes. The first rank that is there tells it
 * once. */
bool is_standstill(uint64_t quiet);

/* The same for a rank that waits for as long as it takes, which says too whether all that it sent is acknowledged:
 * where each rank's is, and each has looked again and found nothing, the first one tells it once, and all wait on.
 * Where one of them has ended and never began, they end. */
void watch_standstill(uint64_t quiet, bool is_idle);

/* The rank waits no longer; it is at its end, and moves nothing any more. */
void standstill_leave(void);
void standstill_close(void);

#endif
