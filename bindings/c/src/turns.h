/* Turns of collectives where threads speak MPI at the same time (MPI 3.1, 12.4): the engine of a rank is in one
 * collective at a time, and does nothing else meanwhile. So the members first come together by messages of the engine
 * of plans, while all other calls go on; then each keeps its engine for this collective, in the order of their ranks in
 * MPI_COMM_WORLD, which is the same for all collectives, so that of two one is first at all members of both; then all
 * enter. */
#ifndef KOMBAZILY_TURNS_H
#define KOMBAZILY_TURNS_H

#include "communicators.h"

#include <stdint.h>

/* Waits until all members are there and the engines are theirs; and gives this one back. What is within needs no turn
 * of its own. Both do nothing where the program has no such threads. The root, or -1, is for the line of the wait. 0,
 * or a number. */
uint32_t begin_turn(const struct communicator *comm, int root);
void end_turn(void);

#endif
