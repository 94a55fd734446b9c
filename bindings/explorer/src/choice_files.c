/* Files of choices: --out writes one of each result, --replay makes the choices of one again. See shell.h. */
#define _GNU_SOURCE
#include "shell.h"

#include <stdlib.h>
#include <string.h>

/* Where the head of a file tells the pass. */
static const char with[] = ", with ";

static const char *last_part(const char *path) {
    const char *folder = strrchr(path, '/');
    return folder == NULL ? path : folder + 1;
}

void write_choices(const struct result *it, int number, bool synchronous) {
    char name[4200];
    snprintf(name, sizeof name, "%s/%s%d.txt", set.out, synchronous && set.both ? "waiting" : "choices", number);
    FILE *into = fopen(name, "w");
    if (into == NULL) {
        fprintf(stderr, "kombazily: %s can't be written\n", name);
        return;
    }
    char sends[80];
    say_sends(synchronous, sends, sizeof sends);
    fprintf(into, "# %d ranks%s%s: %s\n", set.size, with, sends, set.program[0]);
    for (const char *at = it->choices == NULL ? "" : it->choices; *at != '\0';) {
        char words[1800];
        size_t length = say_choice(at, words, sizeof words);
        fprintf(into, "%.*s# %s\n", (int)strcspn(at, "#\n"), at, words);
        at += length + (at[length] == '\n');
    }
    fclose(into);
}

static _Noreturn void refuse(const char *name, const char *why) {
    char text[5000];
    snprintf(text, sizeof text, "%s %s; nothing was run", name, why);
    fail(STATUS_WORDS, text, "");
}

/* Takes the pass that a head tells, which is one that say_sends tells. */
static void take_pass(const char *head) {
    char sends[80];
    const size_t behind = strlen(with);
    long bytes;
    if (strncmp(head, with, behind) != 0) return;
    if (sscanf(head + behind, "sends of up to %ld bytes", &bytes) == 1) {
        set.synchronous = set.each = false;
        set.buffered = bytes;
        return;
    }
    say_sends(true, sends, sizeof sends);
    set.synchronous = strncmp(head + behind, sends, strlen(sends)) == 0;
    set.each = !set.synchronous;
}

/* That a file was written for this program and so many ranks; its pass is taken. */
static void read_head(const char *name, char *line) {
    char why[400];
    int size, end = 0;
    line[strcspn(line, "\n")] = '\0';
    char *program = sscanf(line, "# %d ranks%n", &size, &end) == 1 && end > 0 ? strstr(line + end, ": ") : NULL;
    if (program == NULL) refuse(name, "is no file of choices, as --out writes them");
    if (size != set.size) {
        snprintf(why, sizeof why, "was written for %d rank%s, not for %d (-n)", size, size == 1 ? "" : "s", set.size);
        refuse(name, why);
    }
    if (strcmp(last_part(program + 2), last_part(set.program[0])) != 0) {
        snprintf(why, sizeof why, "was written for another program, %.200s", program + 2);
        refuse(name, why);
    }
    take_pass(line + end);
}

int read_choices(const char *name, bool is_recorded, struct move **moves) {
    FILE *from = fopen(name, "r");
    char line[5000] = "";
    int count = 0;
    if (from == NULL) fail(STATUS_WORDS, "it can't be read: ", name);
    if (!is_recorded) {
        if (fgets(line, sizeof line, from) == NULL) line[0] = '\0';
        read_head(name, line);
    }
    while (fgets(line, sizeof line, from) != NULL) {
        struct move m = {.kind = 0};
        bool is_move = is_recorded ? sscanf(line, "%u %u %u", &m.rank, &m.op, &m.at) == 3
                                   : sscanf(line, "%u %u %u %u", &m.kind, &m.rank, &m.op, &m.at) == 4;
        if (!is_move) continue;
        *moves = realloc(*moves, (size_t)(count + 1) * sizeof m);
        if (*moves == NULL) fail(STATUS_START, "no memory", "");
        (*moves)[count++] = m;
    }
    fclose(from);
    return count;
}
