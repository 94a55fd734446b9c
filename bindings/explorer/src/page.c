/* The page of all that was found: one HTML file that needs nothing else. See shell.h. */
#define _GNU_SOURCE
#include "page.h"
#include "told.h"

#include "shell.h"

#include <stdlib.h>
#include <string.h>

enum { LINES_AROUND = 2, LONGEST_OUTPUT = 20000 };

/* What was written so far. */
static FILE *page;
static char *text;
static size_t length;

static const char head[] =
    "<!DOCTYPE html>\n<html lang=\"en\"><head><meta charset=\"utf-8\">\n"
    "<meta name=\"viewport\" content=\"width=device-width, initial-scale=1\"><title>kombazily check</title>\n<style>\n"
    "body{font:15px/1.5 system-ui,sans-serif;max-width:64rem;margin:2rem auto;padding:0 "
    "1rem;color:#1c2024;background:#fff}\n"
    "h1{font-size:1.5rem;margin-bottom:.2rem}h2{font-size:1.15rem;margin-top:2.2rem;border-bottom:1px solid #d9dde3}\n"
    "h3{font-size:1rem;margin-bottom:.4rem}code,pre,.line{font-family:ui-monospace,monospace;font-size:13px}\n"
    ".badge{color:#fff;border-radius:4px;padding:1px 8px;font-size:13px;font-weight:600}\n"
    ".w3{background:#b42318}.w2{background:#b26a00}.w1{background:#35618e}.w0{background:#2f7d4f}\n"
    "li.w3,li.w2,li.w1,li.w0{background:none}ul.found{list-style:none;padding:0}\n"
    "ul.found>li{border-left:4px solid;padding:.1rem .8rem;margin:.5rem 0}\n"
    "ul.found>li.w3{border-color:#b42318}ul.found>li.w2{border-color:#b26a00}ul.found>li.w1{border-color:#35618e}\n"
    "table.source{border-collapse:collapse;margin:.3rem 0;background:#f6f7f9;width:100%}\n"
    "table.source td{padding:0 .6rem;white-space:pre;font:13px/1.45 ui-monospace,monospace}\n"
    "table.source td:first-child{color:#697077;text-align:right;width:3rem;user-select:none}\n"
    "table.source tr.here td{background:#ffe8a3}table.source caption{text-align:left;color:#4b5258;font-size:13px}\n"
    ".part{background:#f6f7f9;padding:.5rem .8rem;margin:.6rem 0}pre{background:#f6f7f9;padding:.6rem;overflow:auto}\n"
    "summary{cursor:pointer}svg text{font:12px system-ui,sans-serif;paint-order:stroke;stroke:#fff;stroke-width:3px}\n"
    "svg{max-width:100%;height:auto}\n"
    ".small{color:#4b5258;font-size:13px}\n"
    "</style></head><body>\n";

void put_escaped(FILE *into, const char *from) {
    for (; *from != '\0'; from++) {
        if (*from == '<') fputs("&lt;", into);
        else if (*from == '>') fputs("&gt;", into);
        else if (*from == '&') fputs("&amp;", into);
        else if (*from == '"') fputs("&quot;", into);
        else fputc(*from, into);
    }
}

static void open_page(void) {
    if (page != NULL) return;
    page = open_memstream(&text, &length);
    if (page == NULL) fail(STATUS_START, "no memory", "");
    fputs(head, page);
    put_arrowheads(page);
    fputs("<h1>What <code>", page);
    put_escaped(page, program_name());
    for (char **word = set.program + 1; set.played == NULL && *word != NULL; word++) {
        fputc(' ', page);
        put_escaped(page, *word);
    }
    fprintf(page, "</code> may do on %d rank%s</h1>\n", set.size, set.size == 1 ? "" : "s");
    fputs("<p class=\"small\">Each run makes the choices that MPI leaves open in another way: whose message a receive "
          "of any source takes, what a probe or a test says, which request ends first. That every choice was tried is "
          "argued and tested, not proved. It holds for sends that are buffered, or wait, as the heading says, and for "
          "looks that say no a few times in a row at most: docs/CHECKING.md of Kombazily has the premises, and what is "
          "missed.</p>\n",
          page);
}

/* ---- source lines ---- */

static void put_source(const struct source_line *it) {
    FILE *from = fopen(it->file, "r");
    char *line = NULL;
    size_t room = 0;
    if (from == NULL) return;
    fprintf(page, "<table class=\"source\"><caption>");
    put_escaped(page, it->name);
    fprintf(page, ", in <code>");
    put_escaped(page, it->function);
    fprintf(page, "</code></caption>\n");
    for (int number = 1; getline(&line, &room, from) >= 0 && number <= it->line + LINES_AROUND; number++) {
        if (number < it->line - LINES_AROUND) continue;
        line[strcspn(line, "\r\n")] = '\0';
        fprintf(page, "<tr%s><td>%d</td><td>", number == it->line ? " class=\"here\"" : "", number);
        put_escaped(page, line);
        fputs("</td></tr>\n", page);
    }
    fputs("</table>\n", page);
    free(line);
    fclose(from);
}

/* The calls of a finding that stand in the program, each line once. */
static void put_places(const struct finding *it) {
    struct source_line told[4];
    int count = 0;
    for (int i = 0; i < it->place_count; i++) {
        struct source_line lines[2];
        int found = source_lines(it->places[i].frames, it->places[i].count, lines, 2);
        for (int k = 0; k < found; k++) {
            bool is_told = false;
            for (int j = 0; j < count; j++)
                is_told |= told[j].line == lines[k].line && strcmp(told[j].file, lines[k].file) == 0;
            if (is_told) continue;
            told[count++] = lines[k];
            put_source(&lines[k]);
        }
    }
}

/* ---- results ---- */

static void put_finding(const struct finding *it) {
    const struct told told = told_of(it);
    fprintf(page, "<li class=\"w%u\">", told.weight);
    put_escaped(page, told.words);
    fputc('\n', page);
    put_places(it);
    fputs("</li>\n", page);
}

static void put_parting(int own) {
    struct parting parting;
    char mine[1800], theirs[1800];
    if (!find_parting(own, &parting)) return;
    say_choice(parting.mine, mine, sizeof mine);
    say_choice(parting.theirs, theirs, sizeof theirs);
    fprintf(page, "<div class=\"part\"><b>Choice %d parts it from result %d.</b><br>Here: ", parting.choice,
            parting.other + 1);
    put_escaped(page, mine);
    fputs("<br>There: ", page);
    put_escaped(page, theirs);
    fputs("</div>\n", page);
}

/* All choices of a result, in words. */
static void put_choices(const struct result *it) {
    if (it->choices == NULL) return;
    fputs("<details><summary>The choices that lead there</summary><ol class=\"small\">\n", page);
    for (const char *at = it->choices; *at != '\0';) {
        char words[1800];
        size_t own = say_choice(at, words, sizeof words);
        fputs("<li>", page);
        put_escaped(page, words);
        fputs("</li>\n", page);
        at += own + (at[own] == '\n');
    }
    fputs("</ol></details>\n", page);
}

static void put_output(const struct result *it) {
    if (it->output[0] == '\0') return;
    fprintf(page, "<details%s><summary>What the ranks printed</summary><pre>", result_count > 1 ? " open" : "");
    if (strlen(it->output) > LONGEST_OUTPUT) {
        char *cut = strndup(it->output, LONGEST_OUTPUT);
        if (cut != NULL) put_escaped(page, cut);
        free(cut);
        fputs("\n.. and more", page);
    } else {
        put_escaped(page, it->output);
    }
    fputs("</pre></details>\n", page);
}

static void put_result(int i) {
    const struct result *it = &results[i];
    fprintf(page, "<h3>Result %d of %d <span class=\"badge w%u\">%s</span></h3>\n", i + 1, result_count, it->weight,
            ending_word(it->ending));
    fprintf(page, "<p class=\"small\">In %ld run%s.", it->runs, it->runs == 1 ? "" : "s");
    if (it->is_early && it->weight > 0)
        fputs(" Perhaps: only where a look says no, or tells of fewer than are there.", page);
    if (it->is_odd) fputs(" Perhaps: no one order of arrival gives this, but MPI allows it.", page);
    fputs(it->finding_count == 0 ? " Nothing to tell.</p>\n" : "</p>\n<ul class=\"found\">\n", page);
    for (int k = 0; k < it->finding_count; k++) put_finding(&it->findings[k]);
    if (it->finding_count > 0) fputs("</ul>\n", page);
    put_parting(i);
    put_picture(page, it);
    put_choices(it);
    put_output(it);
}

void page_add(const struct pass *pass) {
    open_page();
    char sends[80];
    say_sends(pass->synchronous, sends, sizeof sends);
    fprintf(page, "<h2>With %s</h2>\n", sends);
    fprintf(page, "<p>%ld run%s: %s.</p>\n", pass->runs, pass->runs == 1 ? "" : "s", said_of(pass));
    for (int i = 0; i < result_count && i < set.results; i++) put_result(i);
}

void page_write(const char *name) {
    FILE *into = fopen(name, "w");
    open_page();
    fputs("</body></html>\n", page);
    fclose(page);
    if (into == NULL || fwrite(text, 1, length, into) != length || fclose(into) != 0)
        fprintf(stderr, "kombazily: %s can't be written\n", name);
    free(text);
}
