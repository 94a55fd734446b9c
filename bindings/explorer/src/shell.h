/* The shell of the explorer: processes, sockets, files and words. It decides nothing that MPI leaves open. */
#ifndef EXPLORER_SHELL_H
#define EXPLORER_SHELL_H

#include "steps.h"

#include <signal.h>

enum { MOST_MOVES = 1 << 14 };

/* Statuses of the program, beside those that its runs give (verdicts.h). */
enum { STATUS_CLEAN = 0, STATUS_WORDS = 2, STATUS_START = 6 };

/* ---- main.c ---- */

struct settings {
    int size;
    bool both, synchronous, each, only_buffered;
    long buffered; /* the longest standard send of the first pass that is buffered, in bytes */
    bool forks, places, goes_on, quiet, shows_output, counts_only, has_no_sleep;
    long most, results, random;
    long mix; /* within so many places a run may make other choices than the first ones; -1: at all of them */
    double seconds, patience;
    int noes;
    const char *replay, *out, *html, *input, *sarif, *junit;
    const char *form; /* the word behind --format, and what it names */
    enum { FORMAT_TEXT, FORMAT_JSON, FORMAT_GCC } format;
    const char *played;   /* the program whose record is played, or NULL */
    const char *followed; /* what was matched in its run, which one run follows */
    int debugged;         /* the rank under gdb, or -1 */
    char **program;
};
extern struct settings set;
/* The signal that asks for the end of the search, once one has come: the run is cut off, and what was found is told. */
extern volatile sig_atomic_t asked_to_stop;
double now(void);
_Noreturn void fail(int status, const char *cause, const char *detail);
/* Fails where the standard output didn't take what was printed. */
void need_output(void);

/* ---- words.c ---- */

/* Reads the program's words into `set`. */
void read_words(int count, char **words);

/* ---- processes.c ---- */

/* Starts the process of a rank for a run, in which it leaves collectives early, or with all. */
void start_rank(int rank, bool leaves_early);
void close_moulds(void);
/* Takes it to its end. One that talks no more may end by itself: whether it did. */
bool end_rank(int rank, bool by_force);
int status_of_rank(int rank);
int socket_of_rank(int rank);
void close_socket(int rank);
/* Takes in bytes of a rank: whether they came. */
bool take_in(int rank, void *into, size_t length);
bool has_more(int rank);
bool put_out(int rank, const void *from, size_t length);
/* What a rank has printed: the caller frees it. */
char *output_of(int rank, size_t *length);
void close_outputs(void);

/* ---- search.c: which moves are made in which run ---- */

/* What the static library holds; a new search, with no run made; a run begins. */
extern struct choices choices;
void search_open(void);
void search_start_run(void);
void search_close(void);
/* The move to be made, of these, which are those at the fence: NULL, all were tried on other ways. `is_astray`: the
 * moves aren't those that were there before, behind the same ones. */
const struct move *search_move(const struct move *moves, int count, bool *is_astray);
/* The run has come to its end: false, there were moves here before, behind the same ones. */
bool search_end_run(void);
/* The next run: false, there is none. And whether all was tried. */
bool search_next(void);
bool search_tried_all(void);

/* ---- runs.c ---- */

/* How the moves of a run are chosen; by a prefix: as by a file, and the run is cut behind its end. */
enum choosing { BY_SEARCH, BY_CHANCE, BY_FILE, BY_PREFIX, BY_RECORD };

struct run {
    enum ending ending;
    struct steps *steps;
    char *choices; /* in words, where places are told */
    size_t choices_length;
    struct move *moves;
    int move_count;
    int early; /* looks that say no, or name one of several, though more is there */
    bool is_astray;
    bool differs; /* a choice wasn't the first one of its place, and the first such place */
    int differs_at;
    bool has_open_end; /* what was recorded of a rank was over before its program was */
    uint64_t asks;     /* so many calls that the explorer heard of */
};
struct counts {
    uint64_t asks, moves, calls;
    bool has_withheld;  /* a look of some run wasn't let say no (--noes) */
    bool has_apart;     /* some run was kept from other choices than the first ones (--mix) */
    bool has_kept;      /* a rank had to stay in a call that makes a communicator, since others weren't there */
    bool has_parts;     /* not each part of those that some of a list might end was tried */
    bool has_long;      /* a standard send of some run was longer than is buffered */
    bool has_cancelled; /* some run left it open whether a message or the cancel of its receive comes first */
    bool has_ready;     /* of a ready send of some run it isn't known whether it may come before its receive */
    bool is_unexplored; /* some run came to a call that can't be explored */
};
extern struct counts counts;

/* Runs the program once. */
void run_once(struct run *run, bool synchronous, enum choosing choosing);
/* At this time a run that lasts is cut off: it is LATE. */
void end_runs_at(double time);
/* The moves of the next runs by file; of those by record, in any order. */
void force_moves(const struct move *moves, int count);

/* ---- lines.c: places in the program's source ---- */

struct source_line {
    char file[200]; /* with its folders, or empty */
    char name[120]; /* the last part of it */
    char function[120];
    int line;
};
/* The calls of a place that stand in the program's own source, innermost first: how many. */
int source_lines(const uint64_t *frames, uint32_t count, struct source_line *lines, int room);
void say_place(const uint64_t *frames, uint32_t count, char *into, size_t room);
/* Where the choice of a line stands: how many frames. */
uint32_t frames_of_choice(const char *at, uint64_t frames[EXPLORER_FRAMES]);
void say_finding(const struct finding *finding, char *into, size_t room);
/* A line of choices in words, or its rest behind them. */
size_t say_choice(const char *at, char *into, size_t room);

/* ---- results.c ---- */

struct result {
    enum ending ending;
    uint32_t weight;
    char *words, *output, *choices;
    long runs, first;
    bool is_early, is_odd, has_places, has_mismatch;
    bool is_elsewhere; /* the same choices, made once more, led to something else */
    uint64_t key;
    struct move *moves;
    int move_count;
    /* For the page. */
    struct finding *findings;
    int finding_count;
    struct picture_item *items;
    int item_count;
    int cycle[MOST_RANKS], cycle_length;
};
extern struct result *results;
extern int result_count;
/* Counts a run to its result, which is new or was there before. */
void note_run(struct run *run, long number);
void free_results(void);
/* Writes what the runs came to, and says how much the pass weighs. */
struct pass {
    bool synchronous, is_all;
    bool is_late;       /* the time was over, or a signal came, while a run lasted */
    uint64_t most_asks; /* of the runs that came to their ends */
    int stopped;        /* the signal that ended the search, or 0 */
    const char *astray;
    long tries; /* runs that were begun: */
    long runs;  /* those that came to their ends, */
    long cut;   /* and those that were cut short, since others stand for them */
    double took;
};
uint32_t tell_results(const struct pass *pass);
/* How the sends of a pass go, and what was tried, in words. */
void say_sends(bool synchronous, char *into, size_t room);
const char *said_of(const struct pass *pass);
const char *ending_word(enum ending ending);
/* Where a result parts from the one that is nearest to it: false, there is none. */
struct parting {
    int other, choice;
    const char *mine, *theirs;
};
bool find_parting(int own, struct parting *parting);
/* A result once more, with places: false, the program went another way. */
bool find_places(struct result *it, bool synchronous);

/* ---- choice_files.c ---- */

/* Writes the choices of a result into a file of --out. */
void write_choices(const struct result *it, int number, bool synchronous);
/* Reads the moves of such a file, which has to be of this program and as many ranks; its pass is taken. Those of a
 * recorded run have no kind. */
int read_choices(const char *name, bool is_recorded, struct move **moves);

/* ---- page.c ---- */

/* Adds what a pass came to to the page; writes it. */
void page_add(const struct pass *pass);
void page_write(const char *name);
#endif
