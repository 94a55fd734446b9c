/* The wire to a launcher of a site that speaks PMI, the process management interface of MPICH: PMI-1, lines of words,
 * or PMI-2, records of words, over a socket that the launcher left open. What a line says and what a place is are
 * decided by the static library (launching.h); here are the socket and the order of questions. */
#ifndef KOMBAZILY_PMI_H
#define KOMBAZILY_PMI_H

#include "addresses.h"
#include "launching.h"

/* Begins to speak with the launcher of this way. This and each further one: whether it went well. What failed stands in
 * pmi_fault. No program that this one starts has the socket. */
bool pmi_open(const struct launch_way *way);

/* Tells the others where this rank is, waits until all have told it, and learns where each is and the job's number.
 * Rank 0 tells the latter. */
bool pmi_exchange(const struct told_place *own, struct addresses *job, uint64_t *number);

/* Whether a launcher speaks. */
bool pmi_is_open(void);
/* Says that this rank is done; nothing where no launcher speaks. */
void pmi_close(void);
/* Asks the launcher to end the job with this code, and doesn't wait for an answer. What was written before is seen. */
void pmi_abort(int code);
/* What failed last. */
const char *pmi_fault(void);

#endif
