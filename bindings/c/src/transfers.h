/* Sends and receives of a program (MPI 3.1, 3.2 to 3.9): what a call was given, and what becomes of it. */
#ifndef KOMBAZILY_TRANSFERS_H
#define KOMBAZILY_TRANSFERS_H

#include "internal.h"

/* What a call was given. */
struct argument {
    const char *call;
    void *buf;
    int count;
    MPI_Datatype type;
    int rank;
    int tag;
    MPI_Comm comm;
};

/* A ready send does what a standard one does (3.4); an explorer is told that it is one. */
enum transfer_kind { TRANSFER_RECEIVE, TRANSFER_SEND, TRANSFER_READY, TRANSFER_SYNCHRONOUS, TRANSFER_BUFFERED };

/* The same, checked. */
struct transfer {
    enum transfer_kind kind;
    void *buf;
    int count;
    struct datatype *type;
    struct communicator *comm;
    int peer, tag;
};

/* Each of these answers 0, or the class of an error, of which it has told. */

/* ---- point_to_point.c ---- */

int check_transfer(const struct argument *it, enum transfer_kind kind, struct transfer *made);
/* Begins it. */
int begin_transfer(const char *call, const struct transfer *it, struct request *request);
/* Makes the request that a call answers with, before its operation begins; and hands it to the program, unless the
 * class is that of an error. */
int open_handle(const struct argument *it, const MPI_Request *request, MPI_Request *own);
int hand_over(int class, MPI_Request own, MPI_Request *request);
/* Begins what a call was given, which answers with a request. */
int begin_later(const struct argument *it, enum transfer_kind kind, MPI_Request *request);
/* Tells of a number of the engine, if it is one. */
int tell_number(const struct communicator *comm, const char *call, uint32_t number);

/* ---- buffered.c ---- */

/* Begins a buffered send: its request is at its end at once. */
int begin_buffered(const char *call, const struct transfer *it, struct request *request);
/* At the end of MPI: what is left of them is given back. */
void close_buffer(void);
#endif
