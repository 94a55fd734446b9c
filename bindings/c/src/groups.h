/* Groups (MPI 3.1, 6.3). */
#ifndef KOMBAZILY_GROUPS_H
#define KOMBAZILY_GROUPS_H

#include "group_lists.h"
#include "mpi.h"

#include <stdint.h>

/* Makes a group of these members, by their ranks in MPI_COMM_WORLD: 0, or the class of an error, of which it has told
 * the handler of the communicator. */
int add_group(MPI_Comm comm, const char *call, const uint16_t *members, int size, MPI_Group *group);

/* The members of a group, by their ranks in MPI_COMM_WORLD: 0, or the class of an error, of which it has told. */
int check_members(const char *call, MPI_Group group, struct members *members);

/* Gives all groups back. */
void close_groups(void);

#endif
