/* Info objects (MPI 3.1, 9). The library uses no hint. */
#ifndef KOMBAZILY_INFO_H
#define KOMBAZILY_INFO_H

#include "mpi.h"

struct info;

/* An empty one, with a handle: 0, or the class of an error, of which it has told the handler. */
int add_info(const char *call, struct info **made, MPI_Info *handle);

/* Hints: an info object, or MPI_INFO_NULL for none. */
int check_hints(MPI_Comm comm, const char *call, MPI_Info info);

/* The value of a key, or NULL. And sets one of the program's own: 0, or the class of an error. */
const char *info_value(MPI_Info info, const char *key);
int set_info(const char *call, MPI_Info info, const char *key, const char *value);

/* At the start: what MPI_INFO_ENV tells. At the end: gives that back; the program's own ones stay. */
void open_infos(int argc, char *argv[]);
void close_infos(void);

#endif
