/* Whether all ranks entered the same collectives of MPI_COMM_WORLD. Members that differ may all be done before they
 * could know of it, as two that broadcast from themselves: so it is asked once more at the end. */
#ifndef KOMBAZILY_AGREEMENT_H
#define KOMBAZILY_AGREEMENT_H

#include "communicators.h"
#include "engine.h"
#include "engine_plans.h"

/* Notes what this rank enters. */
void note_entry(const struct engine_call *entry);
/* The same of one that goes by a plan: of its kind and its root alone, since counts may differ. */
void note_plan(enum plan_kind kind, int root, const struct communicator *comm);
/* The same of a persistent one that was made and is begun again, in whatever order. */
void note_again(uint32_t number, const struct communicator *comm);

/* Notes that a call tells the program why a collective of a communicator failed, by where the engine has this one. */
void note_told(uint32_t place);

/* Compares what the ranks have entered, which all of them do together. 0, or MPI_ERR_NOT_SAME, of which it has told:
 * another rank is in another collective even now. */
int compare_entries(const char *call);

/* Tells rank 0, and it alone, of what was found, unless some rank was told of a collective before. 0, or
 * MPI_ERR_NOT_SAME. */
int tell_disagreement(const char *call);

#endif
