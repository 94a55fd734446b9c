/* What is told as files for builds: SARIF 2.1.0, and JUnit's XML. See told.h. */
#define _GNU_SOURCE
#include "page.h"
#include "told.h"

#include <ctype.h>
#include <string.h>

static FILE *opened(const char *name) {
    FILE *into = fopen(name, "w");
    if (into == NULL) fail(STATUS_WORDS, "it can't be written: ", name);
    return into;
}

static void closed(FILE *into, const char *name) {
    const bool is_written = ferror(into) == 0;
    if (fclose(into) != 0 || !is_written) fail(STATUS_WORDS, "it can't be written: ", name);
}

/* ---- SARIF ---- */

/* The name of a file as a part of a URI. */
static void put_uri(FILE *into, const char *file) {
    const char *name = named_from_here(file);
    fprintf(into, "\"%s", name[0] == '/' ? "file://" : "");
    for (; *name != '\0'; name++) {
        const unsigned char c = (unsigned char)*name;
        if (isalnum(c) || strchr("/-._~", c) != NULL) fputc(c, into);
        else fprintf(into, "%%%02X", c);
    }
    fputc('"', into);
}

static void put_location(FILE *into, const struct source_line *at) {
    fputs("{\"physicalLocation\": {\"artifactLocation\": {\"uri\": ", into);
    put_uri(into, at->file);
    fprintf(into, "}, \"region\": {\"startLine\": %d}}, \"logicalLocations\": [{\"name\": ", at->line);
    put_json_text(into, at->function);
    fputs(", \"kind\": \"function\"}]}", into);
}

/* Whether no finding before this one is of its kind. */
static bool is_first_of_kind(int at) {
    for (int i = 0; i < at; i++)
        if (strcmp(told_rows[i].it.kind, told_rows[at].it.kind) == 0) return false;
    return true;
}

static void put_rules(FILE *into) {
    bool is_first = true;
    for (int i = 0; i < told_row_count; i++) {
        if (!is_first_of_kind(i)) continue;
        fprintf(into, "%s\n      {\"id\": \"%s\"}", is_first ? "" : ",", told_rows[i].it.kind);
        is_first = false;
    }
}

static void put_sarif_result(FILE *into, const struct told_row *row) {
    const struct told *it = &row->it;
    const struct told_result *of = row->result < 0 ? NULL : &told_results[row->result];
    fprintf(into, "    {\"ruleId\": \"%s\", \"level\": \"%s\", \"message\": {\"text\": ", it->kind,
            level_of(it->weight));
    put_json_text(into, it->words);
    fputs("}, \"locations\": [", into);
    if (it->place_count > 0) put_location(into, &it->at[0]);
    fputs("], \"relatedLocations\": [", into);
    if (it->place_count > 1) put_location(into, &it->at[1]);
    fprintf(into, "], \"properties\": {\"pass\": %d", row->pass + 1);
    if (it->rank >= 0) fprintf(into, ", \"rank\": %d", it->rank);
    if (of != NULL) fprintf(into, ", \"result\": %d", of->number);
    if (of != NULL && of->choice > 0) {
        fprintf(into, ", \"choice\": %d, \"choiceWords\": ", of->choice);
        put_json_text(into, of->here);
    }
    fputs("}}", into);
}

void write_sarif(const char *name) {
    FILE *into = opened(name);
    fputs("{\"$schema\": \"https://json.schemastore.org/sarif-2.1.0.json\", \"version\": \"2.1.0\", \"runs\": [\n"
          "  {\"tool\": {\"driver\": {\"name\": \"kombazily check\", \"rules\": [",
          into);
    put_rules(into);
    fputs("]}},\n   \"invocations\": [{\"executionSuccessful\": true, \"toolExecutionNotifications\": [", into);
    for (int i = 0; i < told_pass_count; i++) {
        fprintf(into, "%s\n      {\"level\": \"note\", \"message\": {\"text\": ", i > 0 ? "," : "");
        put_json_text(into, told_passes[i].line);
        fputs("}}", into);
    }
    fputs("]}],\n   \"results\": [", into);
    for (int i = 0; i < told_row_count; i++) {
        fputs(i > 0 ? ",\n" : "\n", into);
        put_sarif_result(into, &told_rows[i]);
    }
    fputs("]}\n]}\n", into);
    closed(into, name);
}

/* ---- JUnit ---- */

/* Text of XML, which has no control characters but a few. */
static void put_xml(FILE *into, const char *text) {
    while (*text != '\0') {
        const int length = length_of_character(text);
        const bool is_shown = length > 1 || (length == 1 && (*text >= 0x20 || *text == '\n' || *text == '\t'));
        const char one[2] = {is_shown ? *text : '?', '\0'};
        if (length > 1) fwrite(text, 1, (size_t)length, into);
        else put_escaped(into, one);
        text += length > 0 ? length : 1;
    }
}

static void put_attribute(FILE *into, const char *name, const char *text) {
    fprintf(into, " %s=\"", name);
    put_xml(into, text);
    fputc('"', into);
}

/* What was told of a result, or of a pass alone. */
static void put_words(FILE *into, int pass, int result) {
    for (int i = 0; i < told_row_count; i++) {
        const struct told_row *row = &told_rows[i];
        if (row->pass != pass || row->result != result) continue;
        put_xml(into, row->it.words);
        fputc('\n', into);
    }
    if (result < 0 || told_results[result].choice == 0) return;
    put_xml(into, told_results[result].here);
    fputc('\n', into);
}

/* A test: it failed where something is wrong or left over, and had an error where it couldn't be explored. */
static void put_case(FILE *into, int pass, int result) {
    const struct told_result *it = result < 0 ? NULL : &told_results[result];
    const char *ending = it == NULL ? "the program depends on something else" : ending_word(it->ending);
    const char *element = it != NULL && it->ending == UNEXPLORED ? "error"
                          : it == NULL || it->weight > 1         ? "failure"
                                                                 : "system-out";
    char name[200];
    if (it == NULL) snprintf(name, sizeof name, "all runs");
    else snprintf(name, sizeof name, "result %d of %d: %s", it->number, it->of, ending);
    fputs("    <testcase", into);
    put_attribute(into, "classname", program_name());
    put_attribute(into, "name", name);
    fprintf(into, "><%s", element);
    if (strcmp(element, "system-out") != 0) put_attribute(into, "message", ending);
    fputc('>', into);
    put_words(into, pass, result);
    fprintf(into, "</%s></testcase>\n", element);
}

static void put_suite(FILE *into, int pass) {
    const struct told_pass *own = &told_passes[pass];
    int tests = own->is_astray, failures = own->is_astray, errors = 0;
    for (int i = 0; i < told_result_count; i++) {
        if (pass_of_told(i) != pass) continue;
        tests++;
        if (told_results[i].ending == UNEXPLORED) errors++;
        else failures += told_results[i].weight > 1;
    }
    fputs("  <testsuite", into);
    put_attribute(into, "name", own->line);
    fprintf(into, " tests=\"%d\" failures=\"%d\" errors=\"%d\" time=\"%.2f\">\n", tests, failures, errors,
            own->seconds);
    if (own->is_astray) put_case(into, pass, -1);
    for (int i = 0; i < told_result_count; i++)
        if (pass_of_told(i) == pass) put_case(into, pass, i);
    fputs("  </testsuite>\n", into);
}

void write_junit(const char *name) {
    FILE *into = opened(name);
    fputs("<?xml version=\"1.0\" encoding=\"UTF-8\"?>\n<testsuites>\n", into);
    for (int i = 0; i < told_pass_count; i++) put_suite(into, i);
    fputs("</testsuites>\n", into);
    closed(into, name);
}
