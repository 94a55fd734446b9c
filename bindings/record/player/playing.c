/* Plays the record of a rank: see play.h.
 *
 *   kombazily-play [--pinned [--steered]] [--untyped] FOLDER     by kombazily-check
 *   kombazily-play --look FOLDER                                              says which of these words the record
 * needs
 */
#include "play.h"

#include <stdio.h>
#include <stdlib.h>
#include <string.h>

struct settings set;

void give_up(const char *why, const char *detail) {
    fprintf(stderr, "kombazily: %s%s\n", why, detail);
    exit(2);
}

/* Whether the call that begins at a line told of the end of a request. */
static bool has_got(const struct record *record, int at) {
    for (int i = at + 1; i < record->count && !is_word(&record->lines[i], "call"); i++)
        if (is_word(&record->lines[i], "got")) return true;
    return false;
}

static bool has_ended(const struct record *record, int at) {
    for (int i = at + 1; i < record->count && !is_word(&record->lines[i], "call"); i++)
        if (is_word(&record->lines[i], "done")) return true;
    return false;
}

/* A call that waits for one of several, as the run had it; where it waited for ever, it waits for all. */
static void play_any(const struct record *record, int at) {
    const struct line *line = &record->lines[at];
    if (!has_got(record, at) && !has_ended(record, at)) wait_for_any(line->words + 1, line->count - 1);
}

static void play_completions(const struct record *record, int at) {
    const struct line *line = &record->lines[at];
    if (is_word(line, "wait")) wait_for(line->words + 1, line->count - 1);
    else if (is_word(line, "got")) wait_for(line->words + 1, 1);
    else if (is_word(line, "any")) play_any(record, at);
    else if (is_word(line, "free")) free_request(line->words[1]);
    else if (is_word(line, "abort")) MPI_Abort(MPI_COMM_WORLD, number(line->words[1]));
}

/* A cancel is played where it was in time; else the message came first. */
static void play_cancel(const struct record *record, int at) {
    const struct line *line = &record->lines[at];
    for (int i = at; i < record->count; i++)
        if (is_word(&record->lines[i], "cancelled") && strcmp(record->lines[i].words[1], line->words[1]) == 0)
            cancel(line->words[1]);
}

static void end_as(const char *how) {
    free_types();
    if (strcmp(how, "finalize") == 0) MPI_Finalize();
    exit(0);
}

static void play_line(const struct record *record, int at) {
    const struct line *line = &record->lines[at];
    if (is_word(line, "place")) add_place(line);
    else if (is_word(line, "type")) add_type(line, set.untyped);
    else if (is_word(line, "call")) set_call(line);
    else if (is_word(line, "cancel")) play_cancel(record, at);
    else if (is_word(line, "end")) end_as(line->words[1]);
    else if (!play_messages(line) && !play_collectives(line) && !play_communicators(line)) play_completions(record, at);
}

/* What the run stood in at its end: looks for something that wasn't there. */
static void look_on(const struct record *record) {
    const int at = record->count - 2;
    if (at < 0 || !is_word(&record->lines[at], "look")) return;
    char **words = record->lines[at].words + 1;
    if (strcmp(words[0], "probe") == 0) look_for(words + 1);
    while (strcmp(words[0], "test") == 0 && !test_for(words + 1, record->lines[at].count - 2)) {}
}

void play(const struct record *record) {
    for (int at = 0; at < record->count; at++) play_line(record, at);
    look_on(record);
    exit(STATUS_OPEN_END);
}

/* ---- what a record needs ---- */

static int look(const char *folder) {
    enum { MOST = 1024 };
    struct record record;
    bool is_untyped = false;
    for (int rank = 0, size = MOST; rank < size; rank++) {
        if (!read_record(folder, rank, &record)) continue;
        size = record.size;
        for (int i = 0; i < record.count; i++)
            is_untyped |= is_word(&record.lines[i], "type") && !is_known_type(&record.lines[i]);
    }
    puts(is_untyped ? "--untyped" : "");
    return 0;
}

/* ---- the beginning ---- */

static const char *read_words(int count, char **words) {
    for (int i = 1; i < count; i++) {
        if (strcmp(words[i], "--pinned") == 0) set.pinned = true;
        else if (strcmp(words[i], "--steered") == 0) set.steered = true;
        else if (strcmp(words[i], "--untyped") == 0) set.untyped = true;
        else if (i == count - 1) return words[i];
        else give_up("no such word: ", words[i]);
    }
    give_up("a folder of records has to stand there", "");
}

int main(int count, char **words) {
    enum { BUFFER = 1 << 30 };
    const char *rank = getenv("KOMBAZILY_RANK");
    struct record record;
    if (count == 3 && strcmp(words[1], "--look") == 0) return look(words[2]);
    const char *folder = read_words(count, words);
    if (rank == NULL) give_up("kombazily-check starts it", "");
    bool is_there = read_record(folder, number(rank), &record);
    MPI_Init(&count, &words);
    if (!is_there) exit(STATUS_OPEN_END);
    void *buffer = malloc(BUFFER); /* of sends that are buffered: only what they use is there */
    if (buffer != NULL) MPI_Buffer_attach(buffer, BUFFER);
    setvbuf(stdout, NULL, _IOLBF, 0);
    open_communicators();
    play(&record);
}
