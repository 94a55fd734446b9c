/* The words of `kombazily check`: see shell.h. */
#include "shell.h"

#include <stdlib.h>
#include <string.h>
#include <unistd.h>

struct settings set = {.size = 2,
                       .most = 10000,
                       .results = 10,
                       .seconds = 60,
                       .patience = 10,
                       .noes = 1,
                       .buffered = 61440,
                       .mix = -1,
                       .debugged = -1};

static const char usage[] =
    "usage: kombazily check -n RANKS [WORD ..] PROGRAM [ARGUMENT ..]\n"
    "       kombazily check -n RANKS [WORD ..] FILE.c .. [ARGUMENT ..]\n"
    "\n"
    "Runs a C program of MPI again and again, and makes the choices that MPI leaves open each time otherwise,\n"
    "until all were made or a bound is met. PROGRAM is linked with this library, best with -g; FILE.c ..,\n"
    "which may be Fortran (FILE.f90), is compiled so first.\n"
    "\n"
    "  -n RANKS         how many ranks, 1 to 64 (2)\n"
    "  --both           two passes, as without these words: in the first one sends are buffered; in the second one\n"
    "                   each standard send waits for its receive, and each collective for all\n"
    "  --only-buffered  the first pass alone\n"
    "  --synchronous    the second one alone\n"
    "  --each           one pass, in which it is a choice whether a send waits: what rests on buffers is told\n"
    "  --buffered BYTES where sends are buffered, a longer one waits (61440, as a plain run on one machine has it)\n"
    "  --most RUNS      so many runs at most (10000)\n"
    "  --seconds S      so long at most (60)\n"
    "  --random RUNS    so many runs by chance, where the bounds were met\n"
    "  --mix K          a run makes other choices than the first ones within K places in a row alone: fewer runs\n"
    "  --noes K         so many looks in a row may say no though they could say yes (1)\n"
    "  --fork           each process is started once, and copied in MPI_Init for each run\n"
    "  --out FOLDER     the choices of each result go there, as choices1.txt ..; it is made where it isn't there\n"
    "  --replay FILE    one run, by the choices of such a file\n"
    "  --debug RANK     this rank under gdb\n"
    "  --html FILE      a page of all that was found\n"
    "  --format FORM    text; json: an object a line, of each pass and of each finding; gcc: lines as a compiler's\n"
    "  --sarif FILE     what was found, as SARIF 2.1.0\n"
    "  --junit FILE     the same as JUnit's XML: a suite a pass, a test a result\n"
    "  --go-on          an error that would end the program is told, and returned\n"
    "  --results K      so many results are told (10)\n"
    "  --output         what the program printed is shown, also of one result in which no rank crashed or failed\n"
    "  --quiet          it isn't shown\n"
    "  --count          results are counted and not shown\n"
    "  --patience S     so long a rank may compute without a call (10)\n"
    "  --stdin FILE     rank 0 reads it\n"
    "\n"
    "A program that is linked with MPICH or Open MPI, which `kombazily check` tells by its libraries, is run by its\n"
    "own MPI and recorded, and the calls that were recorded are explored. For such a program alone:\n"
    "\n"
    "  --runs K         so many recorded runs at most (20)\n"
    "  --records FOLDER the records are kept there\n"
    "  --mpiexec WORDS  the command that starts its ranks (mpiexec.hydra, mpirun.openmpi, ..)\n"
    "  --mpicc COMMAND  its compiler, which makes the recorder (mpicc.mpich, mpicc.openmpi, ..)\n"
    "  --patience S     a run in which no rank made a new call for so long is ended (10)\n"
    "\n"
    "-n, --both, --only-buffered, --synchronous, --each, --buffered (65536), --most, --seconds, --results, --output,\n"
    "--quiet, --stdin and --html are as above; that each order was tried is not claimed of it.\n"
    "\n"
    "The status is 0: nothing; 1: something is wrong or left over, or no run came to its end; 2: these words are\n"
    "wrong; 6: the program can't be run, or is none of MPI, or memory is wanting; 7: it can't be explored. What it\n"
    "finds, misses and says falsely: docs/CHECKING.md. That no choice that matters is left out is argued and\n"
    "tested, and not proved.\n";

/* A word, and where its number or its text goes. */
struct word {
    const char *name;
    enum { TAKES_NOTHING, TAKES_WHOLE, TAKES_LONG, TAKES_SECONDS, TAKES_TEXT } takes;
    void *into;
};
static const struct word known[] = {
    {"-n", TAKES_WHOLE, &set.size},
    {"--both", TAKES_NOTHING, &set.both},
    {"--synchronous", TAKES_NOTHING, &set.synchronous},
    {"--each", TAKES_NOTHING, &set.each},
    {"--only-buffered", TAKES_NOTHING, &set.only_buffered},
    {"--buffered", TAKES_LONG, &set.buffered},
    {"--most", TAKES_LONG, &set.most},
    {"--seconds", TAKES_SECONDS, &set.seconds},
    {"--random", TAKES_LONG, &set.random},
    {"--mix", TAKES_LONG, &set.mix},
    {"--noes", TAKES_WHOLE, &set.noes},
    {"--fork", TAKES_NOTHING, &set.forks},
    {"--out", TAKES_TEXT, &set.out},
    {"--replay", TAKES_TEXT, &set.replay},
    {"--debug", TAKES_WHOLE, &set.debugged},
    {"--html", TAKES_TEXT, &set.html},
    {"--format", TAKES_TEXT, &set.form},
    {"--sarif", TAKES_TEXT, &set.sarif},
    {"--junit", TAKES_TEXT, &set.junit},
    {"--go-on", TAKES_NOTHING, &set.goes_on},
    {"--results", TAKES_LONG, &set.results},
    {"--output", TAKES_NOTHING, &set.shows_output},
    {"--quiet", TAKES_NOTHING, &set.quiet},
    {"--count", TAKES_NOTHING, &set.counts_only},
    {"--patience", TAKES_SECONDS, &set.patience},
    {"--stdin", TAKES_TEXT, &set.input},
    {"--plays", TAKES_TEXT, &set.played},
    {"--follow", TAKES_TEXT, &set.followed},
    {"--places", TAKES_NOTHING, &set.places},
    {"--no-sleep", TAKES_NOTHING, &set.has_no_sleep},
};

static const struct word *word_of(const char *name) {
    for (size_t i = 0; i < sizeof known / sizeof *known; i++)
        if (strcmp(known[i].name, name) == 0) return &known[i];
    return NULL;
}

/* Puts what stands behind a word where it goes: whether it fits. */
static bool read_value(const struct word *word, const char *text) {
    char *end;
    const double number = strtod(text, &end);
    const bool is_number = end != text && *end == '\0' && number >= 0 && number <= 1e9;
    const bool is_whole = is_number && number == (double)(long)number;
    switch (word->takes) {
    case TAKES_WHOLE:
        if (is_whole) *(int *)word->into = (int)number;
        return is_whole;
    case TAKES_LONG:
        if (is_whole) *(long *)word->into = (long)number;
        return is_whole;
    case TAKES_SECONDS:
        if (is_number) *(double *)word->into = number;
        return is_number;
    default:
        *(const char **)word->into = text;
        return true;
    }
}

/* Reads one word: how many of the words it took. */
static int read_word(char **words) {
    const struct word *word = word_of(words[0]);
    if (word == NULL) fail(STATUS_WORDS, "no such word: ", words[0]);
    if (word->takes == TAKES_NOTHING) {
        *(bool *)word->into = true;
        return 1;
    }
    if (words[1] == NULL) fail(STATUS_WORDS, "something has to stand behind ", words[0]);
    if (!read_value(word, words[1])) fail(STATUS_WORDS, "no such number: ", words[1]);
    return 2;
}

/* A program of this folder is found without `./`, too. */
static void find_program(void) {
    static char name[4200];
    if (strchr(*set.program, '/') != NULL || access(*set.program, X_OK) != 0) return;
    snprintf(name, sizeof name, "./%s", *set.program);
    *set.program = name;
}

static void read_form(void) {
    static const char *const forms[] = {[FORMAT_TEXT] = "text", [FORMAT_JSON] = "json", [FORMAT_GCC] = "gcc"};
    if (set.form == NULL) return;
    for (size_t i = 0; i < sizeof forms / sizeof *forms; i++)
        if (strcmp(set.form, forms[i]) == 0) {
            set.format = i;
            return;
        }
    fail(STATUS_WORDS, "--format is text, json or gcc, and not ", set.form);
}

/* Which passes are made: both, unless one is asked for. */
static void read_passes(void) {
    if (set.synchronous && set.each)
        fail(STATUS_WORDS, "--synchronous and --each: a send waits always, or by a choice; one of them", "");
    if (set.only_buffered && (set.synchronous || set.each))
        fail(STATUS_WORDS, "--only-buffered is a pass of its own, beside ", set.each ? "--each" : "--synchronous");
    if (set.only_buffered && set.both) fail(STATUS_WORDS, "--only-buffered and --both: one of them", "");
    if (!set.only_buffered && !set.synchronous && !set.each) set.both = true;
}

void read_words(int count, char **words) {
    int at = 1;
    if (count < 2) {
        fputs(usage, stderr);
        exit(STATUS_WORDS);
    }
    while (words[at] != NULL && words[at][0] == '-') {
        if (strcmp(words[at], "-h") == 0 || strcmp(words[at], "--help") == 0) {
            fputs(usage, stdout);
            need_output();
            exit(STATUS_CLEAN);
        }
        at += read_word(words + at);
    }
    set.program = words + at;
    if (*set.program == NULL) fail(STATUS_WORDS, "a program has to stand there", "");
    find_program();
    if (set.input != NULL && access(set.input, R_OK) != 0) fail(STATUS_WORDS, "it can't be read: ", set.input);
    read_passes();
    if (set.mix == 0) fail(STATUS_WORDS, "--mix 1 at least: the choices of one place alone differ then", "");
    read_form();
    if (set.size < 1 || set.size > MOST_RANKS) fail(STATUS_WORDS, "1 to 64 ranks", "");
    if (set.debugged >= set.size) fail(STATUS_WORDS, "there is no such rank to debug", "");
    if (set.debugged >= 0) set.forks = false;
    if (set.replay != NULL || set.followed != NULL) set.places = true;
}
