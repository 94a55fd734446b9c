/* kombazily-check, which is `kombazily check`: runs a C program of MPI again and again, each rank a process, and makes
 * the choices that MPI leaves open each time otherwise. See shell.h. */
#define _GNU_SOURCE
#include "told.h"

#include <errno.h>
#include <math.h>
#include <signal.h>
#include <stdlib.h>
#include <string.h>
#include <sys/stat.h>
#include <time.h>
#include <unistd.h>

double now(void) {
    struct timespec t;
    clock_gettime(CLOCK_MONOTONIC, &t);
    return (double)t.tv_sec + (double)t.tv_nsec * 1e-9;
}

_Noreturn void fail(int status, const char *cause, const char *detail) {
    fflush(stdout);
    fprintf(stderr, "kombazily: %s%s\n", cause, detail);
    close_moulds();
    exit(status);
}

void give_up(const char *why) { fail(STATUS_START, why, ""); }

void need_output(void) {
    if (fflush(stdout) != 0 || ferror(stdout) != 0) fail(STATUS_WORDS, "the output can't be written", "");
}

/* Says how far a long search is, each few seconds, where somebody may look. */
static void say_progress(long runs, double began) {
    enum { EACH_SECONDS = 2 };
    static double said;
    static int is_terminal = -1;
    if (is_terminal < 0) is_terminal = isatty(STDERR_FILENO);
    if (said < began) said = began;
    if (!is_terminal || set.quiet || now() - said < EACH_SECONDS) return;
    said = now();
    fprintf(stderr, "kombazily: %ld runs in %.0f s, %d result%s so far\n", runs, said - began, result_count,
            result_count == 1 ? "" : "s");
}

volatile sig_atomic_t asked_to_stop;

/* A second signal ends the program at once, but for one that comes with the first: `timeout` sends two. */
static void ask_to_stop(int number) {
    static const double at_once = 0.3;
    static double first;
    if (asked_to_stop == 0) first = now();
    asked_to_stop = number;
    if (now() - first < at_once) return;
    signal(number, SIG_DFL);
    raise(number);
}

/* How the signals are treated that ask for an end, but for those that are ignored. */
static void treat_signals(void (*how)(int)) {
    const int numbers[] = {SIGINT, SIGTERM, SIGHUP};
    for (size_t i = 0; i < sizeof numbers / sizeof *numbers; i++)
        if (signal(numbers[i], how) == SIG_IGN) signal(numbers[i], SIG_IGN);
}

/* A search is over. What is told of its results runs them once more, and a signal then ends the program. */
static void end_search(struct pass *pass) {
    treat_signals(SIG_DFL);
    pass->stopped = asked_to_stop;
    asked_to_stop = 0;
    end_runs_at(INFINITY);
    if (pass->stopped != 0) close_moulds();
}

/* Whether a run that was cut off is told of. A record comes to its end where it is given the time. */
static bool is_cut_told(const struct pass *pass, const struct run *run) {
    return asked_to_stop == 0 && set.played == NULL &&
           kombazily_is_cut_told((uint64_t)pass->runs, run->asks, pass->most_asks);
}

/* Runs once, and counts what it came to. */
static void run_and_note(struct pass *pass, enum choosing choosing) {
    struct run run;
    pass->tries++;
    run_once(&run, pass->synchronous, choosing);
    if (run.is_astray)
        pass->astray =
            "stopped, since with the same choices other moves came up: the program depends on something else";
    if (run.ending == LATE) pass->is_late = true;
    const bool has_ended = !run.is_astray && run.ending != CUT && run.ending != LATE;
    if (has_ended || (run.ending == LATE && is_cut_told(pass, &run))) note_run(&run, pass->tries);
    else free(run.choices), free(run.moves);
    pass->runs += has_ended;
    pass->cut += run.ending == CUT && !run.is_astray;
    if (has_ended && run.asks > pass->most_asks) pass->most_asks = run.asks;
    steps_free(run.steps);
    close_outputs();
}

static void explore(struct pass *pass) {
    const double began = now();
    search_open();
    treat_signals(ask_to_stop);
    end_runs_at(began + set.seconds);
    for (;;) {
        run_and_note(pass, BY_SEARCH);
        if (pass->astray != NULL || pass->is_late) break;
        const bool is_last = !search_next();
        pass->is_all = search_tried_all();
        if (is_last || asked_to_stop != 0 || pass->tries >= set.most || now() - began > set.seconds) break;
        say_progress(pass->tries, began);
    }
    end_runs_at(INFINITY);
    for (long i = 0; i < set.random && !pass->is_all && pass->astray == NULL && asked_to_stop == 0; i++)
        run_and_note(pass, BY_CHANCE);
    end_search(pass);
    pass->took = now() - began;
}

static void replay(struct pass *pass) {
    struct move *moves = NULL;
    const double began = now();
    const bool is_recorded = set.followed != NULL;
    int count = read_choices(is_recorded ? set.followed : set.replay, is_recorded, &moves);
    pass->synchronous = set.synchronous;
    search_open();
    treat_signals(ask_to_stop);
    if (set.debugged < 0) end_runs_at(began + set.seconds);
    force_moves(moves, count);
    run_and_note(pass, is_recorded ? BY_RECORD : BY_FILE);
    end_search(pass);
    if (pass->astray != NULL) pass->astray = "stopped, since the choices of the file don't fit the program";
    pass->took = now() - began;
    free(moves);
}

/* The signal that ended the last pass, or 0; and whether a call of some pass couldn't be explored. */
static int stopped;
static bool is_unexplored;
/* Whether a pass that is over met a bound, and left runs out. */
static bool has_rest;
/* Whether a pass that is over made sends that are longer than is buffered, some of which other runs may buffer. */
static bool has_mixture;

/* One pass: how much it weighs. */
static uint32_t make_pass(bool synchronous) {
    struct pass pass = {.synchronous = synchronous};
    counts = (struct counts){0};
    if (set.replay != NULL || set.followed != NULL) replay(&pass);
    else explore(&pass);
    uint32_t weight = tell_results(&pass);
    has_mixture |= counts.has_long;
    has_rest |= !pass.is_all && pass.runs > 0 && pass.astray == NULL && pass.stopped == 0;
    stopped = pass.stopped;
    is_unexplored |= counts.is_unexplored;
    if (set.html != NULL) page_add(&pass);
    free_results();
    return weight;
}

/* What a pass can't show in which all sends of a length go alike. */
static void say_hint(const uint32_t *passes, size_t count) {
    const bool is_one = set.replay != NULL || set.followed != NULL;
    const bool is_other = !has_mixture || set.each || is_one;
    if (set.format != FORMAT_TEXT) return;
    if (has_rest && set.mix < 0 && !is_one && set.played == NULL)
        puts("--mix 2 makes fewer runs: those whose choices differ from the first ones at two places in a row at most");
    if (kombazily_is_hint_told(passes, count, is_unexplored, is_other))
        printf("sends of more than %ld bytes were made: --each tries each send waiting and buffered, by choice\n",
               set.buffered);
}

/* The folder of --out is made, or is there and can be written. */
static void open_folder(const char *name) {
    struct stat found;
    char why[4400];
    if (mkdir(name, 0777) == 0) return;
    if (errno == EEXIST) errno = stat(name, &found) == 0 && !S_ISDIR(found.st_mode) ? ENOTDIR : 0;
    if (errno == 0 && access(name, W_OK | X_OK) == 0) return;
    snprintf(why, sizeof why, "%s: %s", name, strerror(errno));
    fail(STATUS_WORDS, "the folder of --out can't be made or written: ", why);
}

/* What is asked for in files is refused before the first run where it can't be written. */
static void open_files(void) {
    if (set.out != NULL) open_folder(set.out);
    const char *const files[] = {set.html, set.sarif, set.junit};
    for (size_t i = 0; i < sizeof files / sizeof *files; i++) {
        FILE *page = files[i] == NULL ? NULL : fopen(files[i], "a");
        if (files[i] != NULL && page == NULL) fail(STATUS_WORDS, "it can't be written: ", files[i]);
        if (page != NULL) fclose(page);
    }
}

int main(int count, char **words) {
    read_words(count, words);
    setvbuf(stdout, NULL, _IOLBF, 0);
    signal(SIGPIPE, SIG_IGN);
    open_files();
    uint32_t passes[2];
    size_t pass_count = 0;
    passes[pass_count++] = make_pass(set.synchronous);
    if (set.both && !set.synchronous && set.replay == NULL && set.followed == NULL && stopped == 0)
        passes[pass_count++] = make_pass(true);
    if (stopped == 0) say_hint(passes, pass_count);
    close_moulds();
    search_close();
    if (set.html != NULL) page_write(set.html);
    if (set.sarif != NULL) write_sarif(set.sarif);
    if (set.junit != NULL) write_junit(set.junit);
    need_output();
    if (stopped != 0) {
        signal(stopped, SIG_DFL);
        raise(stopped);
    }
    return (int)kombazily_status_of_check(passes, pass_count, is_unexplored);
}
