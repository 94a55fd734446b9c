/* What is told, as records: the text, the page and the forms for builds and editors are made of them. */
#ifndef EXPLORER_TOLD_H
#define EXPLORER_TOLD_H

#include "shell.h"

enum { LONGEST_WORDS = 1800, LONGEST_HEAD = 700 };

/* A finding: what it is, of which rank, where it stands in the source, and in words. */
struct told {
    const char *kind; /* a name that stays, as `deadlock` */
    uint32_t weight;  /* as verdicts.h has it; 0: it is of a pass */
    int rank;         /* -1: of none, or of several */
    struct source_line at[2];
    int place_count;
    char words[LONGEST_WORDS];
};
struct told told_of(const struct finding *it);

/* A result: how it ended, and where it parts from another one. */
struct told_result {
    int number, of;
    long runs;
    enum ending ending;
    uint32_t weight;
    bool is_early, is_odd;
    int other, choice; /* 0: from none */
    struct source_line choice_at;
    char here[LONGEST_WORDS], there[LONGEST_WORDS];
};

/* A pass, in its first line and by itself. */
struct told_pass {
    bool waits, is_all, is_astray, is_unexplored;
    int ranks, results;
    long runs, cut;
    double seconds;
    uint64_t calls, choices;
    char said[LONGEST_HEAD], line[LONGEST_HEAD + 120];
};

/* Makes the records of what was found; they stay to the end. */
void told_begin(const struct pass *pass);
const struct told_result *told_add(int result);

/* All of them: each result is of a pass, and each finding of a result, or of a pass alone (-1). */
struct told_row {
    int pass, result;
    struct told it;
};
extern struct told_pass *told_passes;
extern struct told_result *told_results;
extern struct told_row *told_rows;
extern int told_pass_count, told_result_count, told_row_count;
/* The pass of a result. */
int pass_of_told(int result);

/* ---- forms.c ---- */

/* Puts what was told of the last pass on the standard output, in a form that isn't the text. */
void put_form(void);
/* The name of the program. */
const char *program_name(void);
/* A file of the source as it is named from here. */
const char *named_from_here(const char *file);
/* As `error`, `warning` or `note`. */
const char *level_of(uint32_t weight);
void put_json_text(FILE *into, const char *text);

/* ---- characters.c ---- */

/* The bytes of the character of UTF-8 that begins here, or 0: there is none. */
int length_of_character(const char *text);

/* ---- form_files.c ---- */

void write_sarif(const char *name);
void write_junit(const char *name);
#endif
