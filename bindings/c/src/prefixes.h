/* Reductions by plans that the engine doesn't do: by functions of the program (MPI 3.1, 5.9.5). */
#ifndef KOMBAZILY_PREFIXES_H
#define KOMBAZILY_PREFIXES_H

#include "plan_calls.h"

/* What is folded: so many items of a type, by an operation. */
struct folded {
    const void *sendbuf;
    void *recvbuf;
    int count;
    MPI_Datatype type;
    MPI_Op op;
};

/* Checks the operation, for the type of these places: 0, or a class. */
int check_folding(const struct asked *asked, const struct folded *it, struct plan_call *call,
                  const struct places *places);

int reduce_by_plan(const void *sendbuf, void *recvbuf, int count, MPI_Datatype datatype, MPI_Op op, int root,
                   MPI_Comm comm);
int allreduce_by_plan(const void *sendbuf, void *recvbuf, int count, MPI_Datatype datatype, MPI_Op op, MPI_Comm comm);

#endif
