/* How a process comes to its place in its job, and where the other ranks are. */
#ifndef KOMBAZILY_START_H
#define KOMBAZILY_START_H

#include "addresses.h"

/* Finds the place of this process: from words, which go out of the program's own, else from the environment, else from
 * the launcher of a site; else it is a job of one rank. `process` has it then, and `job` where the ranks are. Where it
 * is told wrongly the process ends. */
void find_place(int *argc, char ***argv, struct addresses *job);

/* From now on this process doesn't outlive the keeper of its launcher, where that one started it without help
 * (KOMBAZILY_KEEPER has its number): nobody would hear of it any more. */
void follow_keeper(void);

/* Takes out of the environment what tells this process's place, so that a program that it starts is no rank of this
 * job: one that speaks MPI is a job of one rank (KOMBAZILY_PARENT says whose child it is). */
void keep_place_from_children(void);

/* Ends a process that can't begin. */
#define TOLD_WRONGLY "its place is told wrongly: "
_Noreturn void refuse_start(int status, const char *cause, const char *detail);

#endif
