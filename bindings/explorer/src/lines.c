/* Places in the program's source, by addr2line: see shell.h. */
#define _GNU_SOURCE
#include "shell.h"

#include <fcntl.h>
#include <spawn.h>
#include <stdlib.h>
#include <string.h>
#include <unistd.h>

extern char **environ;

enum { MOST_KNOWN = 8192, MOST_TOLD = 4 };

/* addr2line, which answers as long as the explorer runs. */
static FILE *asked, *answered;

static bool open_addr2line(void) {
    int in[2], out[2];
    pid_t pid;
    posix_spawn_file_actions_t actions;
    const char *source = set.played != NULL ? set.played : set.program[0];
    char *words[] = {"addr2line", "-f", "-C", "-e", (char *)source, NULL};
    if (asked != NULL) return true;
    if (pipe2(in, O_CLOEXEC) != 0 || pipe2(out, O_CLOEXEC) != 0) return false;
    posix_spawn_file_actions_init(&actions);
    posix_spawn_file_actions_adddup2(&actions, in[0], STDIN_FILENO);
    posix_spawn_file_actions_adddup2(&actions, out[1], STDOUT_FILENO);
    int why = posix_spawnp(&pid, words[0], &actions, NULL, words, environ);
    posix_spawn_file_actions_destroy(&actions);
    close(in[0]);
    close(out[1]);
    if (why != 0) return false;
    asked = fdopen(in[1], "w");
    answered = fdopen(out[0], "r");
    return asked != NULL && answered != NULL;
}

/* Where the library's own calls stand. */
static bool is_of_library(const char *file) {
    static const char *const folders[] = {"bindings/c/src/", "bindings/fortran/src/", "bindings/fortran/../"};
    for (size_t i = 0; i < sizeof folders / sizeof *folders; i++)
        if (strstr(file, folders[i]) != NULL) return true;
    return false;
}

/* Reads `file.c:12 (discriminator 3)`; the file's name may have blanks. */
static void read_line(char *text, struct source_line *into) {
    char *note = strstr(text, " (discriminator ");
    text[note != NULL ? (size_t)(note - text) : strcspn(text, "\n")] = '\0';
    char *colon = strrchr(text, ':');
    /* Without lines it is `??:?`, or the name of an object with a question mark. */
    if (text[0] == '?' || colon == NULL || atoi(colon + 1) == 0 || is_of_library(text)) return;
    *colon = '\0';
    const char *name = strrchr(text, '/');
    into->line = atoi(colon + 1);
    snprintf(into->file, sizeof into->file, "%.199s", text);
    snprintf(into->name, sizeof into->name, "%.119s", name == NULL ? text : name + 1);
}

static struct source_line look_up(uint64_t at) {
    struct source_line found = {.line = 0};
    char function[300], text[600];
    if (!open_addr2line()) return found;
    fprintf(asked, "%#lx\n", (unsigned long)(at - 1));
    fflush(asked);
    if (fgets(function, sizeof function, answered) == NULL || fgets(text, sizeof text, answered) == NULL) return found;
    function[strcspn(function, "\n")] = '\0';
    snprintf(found.function, sizeof found.function, "%.119s", function);
    read_line(text, &found);
    return found;
}

/* The line of an address; its file is empty where it is the library's, or isn't known. */
static const struct source_line *line_of(uint64_t at) {
    static struct {
        uint64_t at;
        struct source_line line;
    } known[MOST_KNOWN];
    static int count;
    for (int i = 0; i < count; i++)
        if (known[i].at == at) return &known[i].line;
    int place = count < MOST_KNOWN ? count++ : MOST_KNOWN - 1;
    known[place].at = at;
    known[place].line = look_up(at);
    return &known[place].line;
}

int source_lines(const uint64_t *frames, uint32_t count, struct source_line *lines, int room) {
    int found = 0;
    for (uint32_t i = 0; i < count && found < room; i++) {
        const struct source_line *it = line_of(frames[i]);
        if (it->file[0] == '\0') continue;
        lines[found++] = *it;
        if (strcmp(it->function, "main") == 0 || strcmp(it->function, "MAIN__") == 0) break;
    }
    return found;
}

void say_place(const uint64_t *frames, uint32_t count, char *into, size_t room) {
    struct source_line lines[2];
    int found = source_lines(frames, count, lines, 2);
    size_t length = 0;
    if (found == 0)
        snprintf(into, room, "%s", count == 0 ? "a place that isn't known" : "a place without lines (compile with -g)");
    for (int i = 0; i < found && length < room; i++)
        length += (size_t)snprintf(into + length, room - length, "%s%s:%d (%s)", i > 0 ? ", called at " : "",
                                   lines[i].name, lines[i].line, lines[i].function);
}

/* Adds the words of a place. The same one again, in brackets, is left out with them: whether it was. */
static bool add_place(const struct place *place, bool is_second, char *into, size_t room) {
    char words[600];
    say_place(place->frames, place->count, words, sizeof words);
    size_t length = strlen(into);
    char *bracket = strrchr(into, '(');
    if (is_second && bracket != NULL && strstr(into, words) != NULL) {
        while (bracket > into && bracket[-1] == ' ') bracket--;
        *bracket = '\0';
        return true;
    }
    snprintf(into + length, room - length, "%s", words);
    return false;
}

void say_finding(const struct finding *finding, char *into, size_t room) {
    into[0] = '\0';
    for (const char *at = finding->text; *at != '\0'; at++) {
        size_t length = strlen(into);
        if (length + 2 > room) return;
        if (at[0] != '%' || (at[1] != '0' && at[1] != '1')) {
            into[length] = *at;
            into[length + 1] = '\0';
            continue;
        }
        int number = *++at - '0';
        bool is_bracket = number == 1 && at[1] == ')';
        if (number < finding->place_count && add_place(&finding->places[number], is_bracket, into, room)) at++;
    }
}

uint32_t frames_of_choice(const char *at, uint64_t frames[EXPLORER_FRAMES]) {
    const char *end = at + strcspn(at, "\n");
    uint32_t count = 0;
    for (const char *p = strstr(at, " @"); p != NULL && p < end && count < EXPLORER_FRAMES; p = strstr(p + 2, " @"))
        frames[count++] = strtoull(p + 2, NULL, 16);
    return count;
}

size_t say_choice(const char *at, char *into, size_t room) {
    size_t length = strcspn(at, "\n");
    char line[1500], place[600];
    uint64_t frames[EXPLORER_FRAMES];
    const uint32_t count = frames_of_choice(at, frames);
    snprintf(line, sizeof line, "%.*s", (int)length, at);
    char *mark = strstr(line, " @");
    if (mark != NULL) *mark = '\0';
    say_place(frames, count, place, sizeof place);
    char *words = strstr(line, "# "), *hole = strstr(line, "%0");
    words = words == NULL ? line : words + 2;
    if (hole == NULL) snprintf(into, room, "%s", words);
    else snprintf(into, room, "%.*s%s%s", (int)(hole - words), words, place, hole + 2);
    return length;
}
