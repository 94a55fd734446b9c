/* Reads the record of a rank: see play.h. */
#define _GNU_SOURCE
#include "play.h"

#include <stdio.h>
#include <stdlib.h>
#include <string.h>

bool is_word(const struct line *line, const char *word) { return strcmp(line->words[0], word) == 0; }
int number(const char *word) { return (int)strtol(word, NULL, 10); }
int rank_of(const char *word) {
    return strcmp(word, "any") == 0 ? MPI_ANY_SOURCE : strcmp(word, "none") == 0 ? MPI_PROC_NULL : number(word);
}
int tag_of(const char *word) { return strcmp(word, "any") == 0 ? MPI_ANY_TAG : number(word); }

static void *need(void *made) {
    if (made == NULL) give_up("no memory for a record", "");
    return made;
}

/* Cuts a line into its words, at least five of which are there or empty. */
static struct line cut(char *text) {
    enum { LEAST = 12 };
    struct line line = {.count = 0};
    int room = LEAST;
    line.words = need(malloc((size_t)room * sizeof *line.words));
    for (char *word = strtok_r(text, " ", &text); word != NULL; word = strtok_r(NULL, " ", &text)) {
        if (line.count + LEAST > room) {
            room = 2 * room + LEAST;
            line.words = need(realloc(line.words, (size_t)room * sizeof *line.words));
        }
        line.words[line.count++] = word;
    }
    for (int i = line.count; i < line.count + LEAST && i < room; i++) line.words[i] = "";
    return line;
}

/* The line of a receive or a probe that took something: by a request's name, a choice's number, or in the same call. */
struct takers {
    int *of_request, *of_probe, in_call, most;
};

static void note_taker(const struct record *all, int at, struct takers *takers) {
    const struct line *line = &all->lines[at];
    const bool is_call = is_word(line, "recv");
    if (is_word(line, "call")) takers->in_call = -1;
    if (is_call) takers->in_call = at;
    if (is_word(line, "irecv") && number(line->words[1]) < takers->most)
        takers->of_request[number(line->words[1])] = at;
    if ((is_word(line, "probe") || is_word(line, "mprobe")) && number(line->words[1]) < takers->most)
        takers->of_probe[number(line->words[1])] = at;
}

static void note_taken(struct record *all, int at, const struct takers *takers) {
    const struct line *line = &all->lines[at];
    const bool is_probe = is_word(line, "saw"), is_receive = is_word(line, "took");
    if (!is_probe && !is_receive) return;
    const int name = number(line->words[1]);
    int taker = takers->in_call;
    if (name >= takers->most) return;
    if (is_probe) taker = takers->of_probe[name];
    else if (name != 0) taker = takers->of_request[name];
    if (taker < 0) return;
    all->lines[taker].has_taken = true;
    all->lines[taker].source = rank_of(line->words[2]);
    all->lines[taker].taken_tag = line->words[3];
}

/* Notes at each receive and probe what it took. */
static void join_lines(struct record *all) {
    struct takers takers = {.in_call = -1, .most = all->count + 1};
    takers.of_request = need(malloc((size_t)takers.most * sizeof *takers.of_request));
    takers.of_probe = need(malloc((size_t)takers.most * sizeof *takers.of_probe));
    for (int i = 0; i < takers.most; i++) takers.of_request[i] = takers.of_probe[i] = -1;
    for (int at = 0; at < all->count; at++) {
        note_taker(all, at, &takers);
        note_taken(all, at, &takers);
    }
    free(takers.of_request);
    free(takers.of_probe);
}

static char *read_all(FILE *from) {
    size_t length = 0, room = 1 << 16;
    char *text = need(malloc(room));
    for (size_t some; (some = fread(text + length, 1, room - length - 1, from)) > 0;) {
        length += some;
        if (length + 1 == room) text = need(realloc(text, room *= 2));
    }
    text[length] = '\0'; /* behind the last line of a run that was killed stand zeros */
    return text;
}

bool read_record(const char *folder, int rank, struct record *into) {
    char name[4200];
    size_t room = 0;
    snprintf(name, sizeof name, "%s/rank.%d", folder, rank);
    FILE *from = fopen(name, "r");
    *into = (struct record){.rank = rank};
    if (from == NULL) return false;
    char *text = read_all(from);
    fclose(from);
    for (char *end; (end = strchr(text, '\n')) != NULL; text = end + 1) {
        *end = '\0';
        if ((size_t)into->count == room) {
            room = 2 * room + 64;
            into->lines = need(realloc(into->lines, room * sizeof *into->lines));
        }
        struct line line = cut(text);
        if (line.count > 0) into->lines[into->count++] = line;
    }
    if (into->count == 0) return false; /* its rank was ended from outside before it wrote a line */
    if (!is_word(into->lines, "kombazily-record") || number(into->lines[0].words[1]) != 1)
        give_up("it is no record that this program knows: ", name);
    into->size = number(into->lines[0].words[3]);
    join_lines(into);
    return true;
}
