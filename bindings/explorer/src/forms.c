/* What is told in forms for editors and builds: a compiler's lines, or an object of JSON a line. See told.h. */
#define _GNU_SOURCE
#include "told.h"

#include <string.h>
#include <unistd.h>

const char *program_name(void) {
    const char *name = set.played != NULL ? set.played : set.program[0], *folder = strrchr(name, '/');
    return folder != NULL ? folder + 1 : name;
}

const char *named_from_here(const char *file) {
    static char here[4200];
    static size_t length;
    if (length == 0 && getcwd(here, sizeof here - 1) != NULL) {
        length = strlen(here);
        if (here[length - 1] != '/') here[length++] = '/';
        here[length] = '\0';
    }
    return length > 0 && strncmp(file, here, length) == 0 ? file + length : file;
}

const char *level_of(uint32_t weight) { return weight == 3 ? "error" : weight == 1 ? "note" : "warning"; }

/* ---- a compiler's lines ---- */

static void put_place(const struct source_line *at) {
    if (at->file[0] == '\0') printf("%s: ", program_name());
    else printf("%s:%d: ", named_from_here(at->file), at->line);
}

static void put_lines(void) {
    const struct told_pass *pass = &told_passes[told_pass_count - 1];
    printf("%s: note: %s\n", program_name(), pass->line);
    for (int i = 0, last = -1; i < told_row_count; i++) {
        const struct told_row *row = &told_rows[i];
        if (row->pass != told_pass_count - 1) continue;
        put_place(&row->it.at[0]);
        printf("%s: %s [%s]\n", row->it.weight == 1 ? "note" : "warning", row->it.words, row->it.kind);
        const struct told_result *of = row->result < 0 ? NULL : &told_results[row->result];
        if (of == NULL || of->choice == 0 || row->result == last) continue;
        last = row->result;
        put_place(&of->choice_at);
        printf("note: it parts from result %d at choice %d: %s\n", of->other, of->choice, of->here);
    }
}

/* ---- JSON ---- */

void put_json_text(FILE *into, const char *text) {
    fputc('"', into);
    for (const char *at = text; *at != '\0';) {
        const int length = length_of_character(at);
        if (length == 0) fputs("\\ufffd", into);
        else if (*at == '"' || *at == '\\') fprintf(into, "\\%c", *at);
        else if (length == 1 && (*at < 0x20 || *at == 0x7f)) fprintf(into, "\\u%04x", (unsigned)*at);
        else fwrite(at, 1, (size_t)length, into);
        at += length > 0 ? length : 1;
    }
    fputc('"', into);
}

static void put_text(const char *name, const char *text) {
    printf(", \"%s\": ", name);
    put_json_text(stdout, text);
}

static void put_flag(const char *name, bool value) { printf(", \"%s\": %s", name, value ? "true" : "false"); }

static void put_pass(const struct told_pass *it) {
    printf("{\"type\": \"pass\", \"pass\": %d, \"ranks\": %d, \"runs\": %ld, \"cut_short\": %ld, \"results\": %d",
           told_pass_count, it->ranks, it->runs, it->cut, it->results);
    printf(", \"seconds\": %.2f, \"calls\": %lu, \"choices\": %lu", it->seconds, (unsigned long)it->calls,
           (unsigned long)it->choices);
    put_flag("waits", it->waits);
    put_flag("tried_all", it->is_all && !it->is_astray && !it->is_unexplored);
    put_text("words", it->line);
    puts("}");
}

static void put_finding(const struct told_row *row) {
    const struct told *it = &row->it;
    const struct told_result *of = row->result < 0 ? NULL : &told_results[row->result];
    printf("{\"type\": \"finding\", \"pass\": %d, \"result\": ", told_pass_count);
    if (of == NULL) fputs("null", stdout);
    else printf("%d", of->number);
    put_text("kind", it->kind);
    put_text("level", level_of(it->weight));
    if (it->rank < 0) fputs(", \"rank\": null", stdout);
    else printf(", \"rank\": %d", it->rank);
    if (it->place_count == 0) {
        fputs(", \"file\": null, \"line\": null, \"function\": null", stdout);
    } else {
        put_text("file", named_from_here(it->at[0].file));
        printf(", \"line\": %d", it->at[0].line);
        put_text("function", it->at[0].function);
    }
    put_text("words", it->words);
    put_text("ending", of == NULL ? "" : ending_word(of->ending));
    put_flag("perhaps", of != NULL && (of->is_early || of->is_odd));
    if (of == NULL || of->choice == 0) {
        puts(", \"choice\": null}");
        return;
    }
    printf(", \"choice\": {\"number\": %d, \"result\": %d", of->choice, of->other);
    put_text("here", of->here);
    put_text("there", of->there);
    puts("}}");
}

static void put_objects(void) {
    put_pass(&told_passes[told_pass_count - 1]);
    for (int i = 0; i < told_row_count; i++)
        if (told_rows[i].pass == told_pass_count - 1) put_finding(&told_rows[i]);
}

void put_form(void) {
    if (set.format == FORMAT_JSON) put_objects();
    if (set.format == FORMAT_GCC) put_lines();
}
