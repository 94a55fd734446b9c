/* The player of records: a program linked with this library, whose ranks make the calls that the ranks of another
 * program made under another MPI, as its record has them (docs/RECORDS.md). It is run by kombazily-check. */
#ifndef PLAY_H
#define PLAY_H

#include <mpi.h>
#include <stdbool.h>
#include <stddef.h>

/* ---- reading.c ---- */

/* A line of a record. */
struct line {
    char **words; /* as many as count, and NULL behind them */
    int count;
    /* Of a receive or a probe: what it took in the run. */
    bool has_taken;
    int source;
    const char *taken_tag;
};
struct record {
    struct line *lines;
    int count, rank, size;
};
/* Reads the record of a rank: false, there is none. */
bool read_record(const char *folder, int rank, struct record *into);
bool is_word(const struct line *line, const char *word);
int number(const char *word);
int rank_of(const char *word);
int tag_of(const char *word);

/* ---- places.c ---- */

/* The call that is played: its name, and where it stands in the recorded program. */
void set_call(const struct line *line);
void add_place(const struct line *line);

/* ---- types.c ---- */

/* Makes a type of a record; and where `untyped`, bytes of it. */
void add_type(const struct line *line, bool untyped);
MPI_Datatype type_of(const char *word);
/* Frees those that it made. */
void free_types(void);
/* Whether this library knows all that the type consists of. */
bool is_known_type(const struct line *line);
MPI_Op op_of(const char *word);
/* Memory for so many of a type, which is zero. */
void *room_of(long count, MPI_Datatype type);

/* ---- playing.c ---- */

struct settings {
    bool pinned;  /* receives of any source name whom they took in the run */
    bool steered; /* those that took nothing name whom they were steered to */
    bool untyped; /* all data are bytes */
};
extern struct settings set;
enum { STATUS_OPEN_END = 96 };
void play(const struct record *record);
_Noreturn void give_up(const char *why, const char *detail);

/* ---- communicators.c ---- */

void open_communicators(void);
MPI_Comm comm_of(const char *word);
/* Plays a line that makes or frees communicators: false, it is another one. */
bool play_communicators(const struct line *line);

/* ---- requests.c ---- */

/* A request of the record, which may be made of several. */
struct played {
    MPI_Request *parts;
    void **rooms;
    int count;
    long choice; /* of a receive of any source */
};
struct played *request_of(const char *name);
void add_part(struct played *to, MPI_Request part, void *room);
/* Waits for those of these names. */
void wait_for(char **names, int count);
void wait_for_any(char **names, int count);
bool test_for(char **names, int count);
void cancel(const char *name);
void free_request(const char *name);
/* Tells which message a choice took, unless it was pinned. */
void tell_choice(long choice, const MPI_Status *status);

/* ---- messages.c, collectives.c ---- */

bool play_messages(const struct line *line);
bool play_collectives(const struct line *line);
/* Looks for a message again, until it is there. */
void look_for(char **words);
#endif
