/* What was sent to each rank and isn't known to have been received (MPI 3.1, 3.4). How a standard send goes by that is
 * decided in engine_sends.h. */
#ifndef KOMBAZILY_UNASKED_H
#define KOMBAZILY_UNASKED_H

#include "engine_sends.h"
#include "internal.h"

/* Takes the bound from the environment: whether it is told rightly there. */
bool open_unasked(void);

/* How a standard send of so many bytes to this rank of MPI_COMM_WORLD goes. One that is refused then is taken back. */
enum send_course begin_unasked(int rank, size_t len);
void take_back_unasked(int rank);

/* Notes of a send that waits for its receive what was sent before it; and, at its end, that this was received. */
void mark_send(struct request *request, int rank);
void note_received(const struct request *request);

/* How many bytes to this rank wait, as far as is known. */
uint64_t unasked_bytes(int rank);

#endif
