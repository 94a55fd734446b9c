/* Buffers that operations have (MPI 3.1, 3.7.2, 3.10, 5.12). Until an operation completes the program may not write
 * what is sent, nor read or write where data come. Under an explorer, and in a run with KOMBAZILY_CHECK, each buffer is
 * watched from the call that begins its operation to the one that completes it, and what is seen is told:
 *
 * - two buffers share a byte, and data come into one of them: decided exactly, by the type maps;
 * - a buffer has other bytes when its operation completes, or when its data come, than when it began;
 * - its memory isn't there then.
 *
 * What a program writes and puts back, or writes as it was, isn't seen, nor what it reads. */
#ifndef KOMBAZILY_WATCHES_H
#define KOMBAZILY_WATCHES_H

#include "plan_runs.h"
#include "transfers.h"

struct watch;

/* In MPI_Init. */
void watches_open(void);

/* A send or a receive has begun; a receive of a message that was taken out; a collective begins. The request is watched
 * from now on, or nothing is: `watch` is NULL then. */
void watch_transfer(struct request *request, const struct transfer *it);
void watch_message(struct request *request, int count);
void watch_plan(struct request *request, const struct plan_call *call);

/* The data of a receive come now: false, they have no place to go. And they are there. */
bool open_watch(struct watch *watch);
void refill_watch(struct watch *watch);

/* The program is told of the end of a request: what differs is told, and it is watched no more. */
void end_watch(struct request *request);
/* It is watched no more. */
void drop_watch(struct request *request);

#endif
