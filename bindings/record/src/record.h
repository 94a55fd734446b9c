/* The recorder: a layer over the second names (PMPI_..) of an MPI, preloaded into the ranks of a program. Each rank
 * writes what it calls into a file (docs/RECORDS.md). It is compiled by the mpicc of the MPI at hand, and uses what
 * mpi.h promises alone. A call is written as it begins, so that a run that hangs or is killed has a record, too. */
#ifndef RECORD_H
#define RECORD_H

#include <mpi.h>
#include <stdbool.h>
#include <stddef.h>

/* ---- file.c: lines ---- */

extern bool is_recording;
/* Begins the record of this rank in a folder: whether that can be written. */
bool open_record(const char *folder, int rank);
/* Adds to a line, and ends it. */
void put(const char *form, ...) __attribute__((format(printf, 1, 2)));
void end_line(void);
void write_line(const char *form, ...) __attribute__((format(printf, 1, 2)));
void close_record(void);

/* ---- calls.c: calls of the program ---- */

/* A call begins: whether it is the program's own and is written, and not one of those that a library makes of others.
 */
bool begin_call(const char *name);
/* The same of a call of which nothing is written before it is known what it found. */
bool begin_look(void);
void write_call(const char *name);
/* A call ends: what it returned. */
int end_call(bool is_own, int code);
int end_look(int code);
/* A look that found nothing: written where it isn't the one that was written last. */
void write_vain_look(const char *name, const char *what);
/* A call that isn't written, or not whole. */
void write_lack(const char *what);

/* ---- places.c ---- */

/* The number of the place in the program from which it calls; what the number means is written where it is new. */
int place_of_call(void);

/* ---- types.c ---- */

/* The number of a type, written where it is new. */
int type_number(MPI_Datatype type);

/* ---- communicators.c ---- */

void open_communicators(void);
/* The number of a communicator, or -1: it isn't in the record, which is then written. */
int communicator_number(MPI_Comm comm);

/* ---- requests.c ---- */

enum request_kind { OF_SEND, OF_RECEIVE, OF_COLLECTIVE };
struct request {
    MPI_Request handle;
    long name; /* what it stands for, once and never again; of a persistent one, what it stands for now */
    enum request_kind kind;
    bool is_persistent, is_active;
    char start[96]; /* of a persistent one: what it starts */
};
long new_name(void);
struct request *add_request(MPI_Request handle, enum request_kind kind, long name);
/* The active request of the place in a list: one handle may stand for several sends that are at their ends. */
struct request *active_request(const MPI_Request *list, int place);
struct request *any_request(MPI_Request handle);
void remove_request(struct request *it);
/* A request is at its end: writes what a receive took. */
void end_request(MPI_Request handle, const MPI_Status *status);
/* As it took a message. Name 0: of the receive that the call itself is. */
void write_taken(long name, const MPI_Status *status);
MPI_Request *copied(int count, const MPI_Request *list);

/* ---- choices.c: receives of any source, and probes ---- */

void open_choices(int rank);
/* The number of the next one at this rank. */
long next_choice(void);
/* The source from which the next one is to take: as the schedule has it, or as it is. */
int steered(int source);
/* The choice of a receive: the next number where it is of any source, else 0. */
long choice_of(int source);
/* A probe saw a message, and a receive is for one that a probe saw: that probe's number, or 0. */
void note_seen(long choice, MPI_Comm comm, int source, int tag, const MPI_Status *status);
long seen_by(MPI_Comm comm, int source, int tag);

/* ---- words ---- */

/* A rank and a tag in words; a word stays until the fourth one behind it. */
const char *rank_word(int rank);
const char *tag_word(int tag);
#endif
