/* What the runs came to: see shell.h. */
#define _GNU_SOURCE
#include "told.h"

#include <stdlib.h>
#include <string.h>

struct result *results;
int result_count;

const char *ending_word(enum ending ending) {
    static const char *const words[] = {"",
                                        "all ranks ended",
                                        "DEADLOCK",
                                        "ended by an error",
                                        "cut short",
                                        "a rank is silent",
                                        "cut off, since the time was over",
                                        "open",
                                        "can't be explored"};
    return words[ending];
}

/* ---- what a run came to ---- */

/* What the ranks printed, each line behind its rank. */
static char *output_of_ranks(void) {
    char *all = NULL;
    size_t room = 0;
    FILE *into = open_memstream(&all, &room);
    if (into == NULL) fail(STATUS_START, "no memory", "");
    for (int rank = 0; rank < set.size; rank++) {
        size_t length;
        char *text = output_of(rank, &length);
        for (char *line = text; line < text + length;) {
            size_t own = strcspn(line, "\n");
            fprintf(into, "[%d] %.*s\n", rank, (int)own, line);
            line += own + 1;
        }
        free(text);
    }
    fclose(into);
    return all;
}

static char *words_of_findings(struct steps *s) {
    const struct finding *findings;
    int count = steps_findings(s, &findings);
    char *all = NULL;
    size_t room = 0;
    FILE *into = open_memstream(&all, &room);
    if (into == NULL) fail(STATUS_START, "no memory", "");
    for (int i = 0; i < count; i++) {
        const struct told told = told_of(&findings[i]);
        fprintf(into, "  %s\n", told.words);
    }
    fclose(into);
    return all;
}

/* A sum of bytes, as FNV-1a has it. */
static uint64_t summed(uint64_t sum, const void *from, size_t length) {
    const uint8_t *at = from;
    for (size_t i = 0; i < length; i++) sum = (sum ^ at[i]) * UINT64_C(1099511628211);
    return sum;
}

/* What a run came to, without lines of source: two runs of one key are told as one. */
static uint64_t key_of(const struct run *run) {
    const struct finding *findings;
    int count = steps_findings(run->steps, &findings);
    uint64_t sum = summed(UINT64_C(14695981039346656037), &run->ending, sizeof run->ending);
    for (int i = 0; i < count; i++) {
        sum = summed(sum, findings[i].text, strlen(findings[i].text));
        for (int k = 0; k < findings[i].place_count; k++) {
            const struct place *place = &findings[i].places[k];
            sum = summed(sum, place->name, strlen(place->name));
            sum = summed(sum, &place->number, sizeof place->number);
        }
    }
    for (int rank = 0; rank < set.size; rank++) {
        size_t length;
        char *text = output_of(rank, &length);
        sum = summed(sum, text, length) + 1;
        free(text);
    }
    return sum;
}

static void keep_findings(struct result *it, struct steps *s) {
    const struct finding *findings;
    free(it->findings);
    free(it->items);
    it->finding_count = steps_findings(s, &findings);
    it->findings = malloc(((size_t)it->finding_count + 1) * sizeof *findings);
    if (it->findings == NULL) fail(STATUS_START, "no memory", "");
    if (it->finding_count > 0) memcpy(it->findings, findings, (size_t)it->finding_count * sizeof *findings);
    /* Only a page shows it; of a run that didn't end it would take longer than the run. */
    it->items = NULL;
    it->item_count = set.html != NULL && it->ending != LATE ? steps_picture(s, &it->items) : 0;
    it->cycle_length = steps_cycle(s, it->cycle);
}

static uint32_t weight_of(const struct run *run) {
    const struct finding *findings;
    const size_t count = (size_t)steps_findings(run->steps, &findings);
    uint32_t *kinds = malloc((count + 1) * sizeof *kinds);
    if (kinds == NULL) fail(STATUS_START, "no memory", "");
    for (size_t i = 0; i < count; i++) kinds[i] = findings[i].kind;
    const uint32_t weight = kombazily_weight_of_run(run->ending, kinds, count);
    free(kinds);
    return weight;
}

static void add_result(struct run *run, long number, uint64_t key) {
    struct result it = {.ending = run->ending, .choices = run->choices, .runs = 1, .first = number, .key = key};
    it.words = words_of_findings(run->steps);
    it.weight = weight_of(run);
    it.output = output_of_ranks();
    it.is_early = run->early > 0;
    it.is_odd = !steps_has_one_order(run->steps);
    it.has_places = set.places || run->ending == LATE; /* its ranks were asked for them */
    it.has_mismatch = steps_has_mismatch(run->steps);
    it.moves = run->moves;
    it.move_count = run->move_count;
    keep_findings(&it, run->steps);
    results = realloc(results, (size_t)(result_count + 1) * sizeof *results);
    if (results == NULL) fail(STATUS_START, "no memory", "");
    results[result_count++] = it;
}

void note_run(struct run *run, long number) {
    const uint64_t key = key_of(run);
    struct result *it = NULL;
    for (int i = 0; i < result_count && it == NULL; i++)
        if (results[i].key == key) it = &results[i];
    if (it == NULL) {
        add_result(run, number, key);
        return;
    }
    it->runs++;
    it->is_early &= run->early > 0;
    if (it->is_odd) it->is_odd = !steps_has_one_order(run->steps);
    free(run->choices);
    free(run->moves);
}

static void free_result(struct result *it) {
    free(it->words);
    free(it->output);
    free(it->choices);
    free(it->moves);
    free(it->findings);
    free(it->items);
}

void free_results(void) {
    for (int i = 0; i < result_count; i++) free_result(&results[i]);
    free(results);
    results = NULL;
    result_count = 0;
}

/* ---- once more, with lines of source ---- */

/* Whether the run that was made anew is the one that was told. Where members enter different collectives, it is left
 * open who is told so, and whether that rank ends by it. */
static bool is_same_run(const struct run *again, const struct result *it, const char *output) {
    if (again->is_astray) return false;
    if (it->has_mismatch && steps_has_mismatch(again->steps)) return true;
    return again->ending == it->ending && strcmp(output, it->output) == 0;
}

/* What is told of a result is what its run came to when it was made anew. */
static void take_over(struct result *it, const struct run *again, char *output) {
    free(it->words), free(it->choices), free(it->output);
    it->ending = again->ending;
    it->weight = weight_of(again);
    it->words = words_of_findings(again->steps);
    it->choices = again->choices;
    it->output = output;
    keep_findings(it, again->steps);
}

/* The choices of a run that was cut off, in words: it is made once more, up to the last of them. */
static void find_choices_of_cut(struct result *it, bool synchronous) {
    struct run again;
    const bool told_places = set.places;
    set.places = true;
    force_moves(it->moves, it->move_count);
    run_once(&again, synchronous, BY_PREFIX);
    set.places = told_places;
    free(it->choices);
    it->choices = again.choices;
    close_outputs();
    steps_free(again.steps);
    free(again.moves);
}

bool find_places(struct result *it, bool synchronous) {
    struct run again;
    if (it->has_places) return !it->is_elsewhere;
    const bool told_places = set.places;
    set.places = true;
    force_moves(it->moves, it->move_count);
    run_once(&again, synchronous, BY_FILE);
    set.places = told_places;
    it->has_places = true;
    char *output = output_of_ranks();
    bool is_same = is_same_run(&again, it, output);
    close_outputs();
    if (is_same) take_over(it, &again, output);
    else free(output), free(again.choices);
    steps_free(again.steps);
    free(again.moves);
    it->is_elsewhere = !is_same;
    return is_same;
}

/* ---- where two results part ---- */

/* How many lines of choices two runs share, and what stands behind them. The numbers count, not the words. */
static int common(const char *a, const char *b, const char **rest_a, const char **rest_b) {
    for (int lines = 0;; lines++) {
        size_t own = strcspn(a, "#\n"), other = strcspn(b, "#\n");
        *rest_a = a;
        *rest_b = b;
        if (*a == '\0' || *b == '\0' || own != other || strncmp(a, b, own) != 0) return lines;
        a += strcspn(a, "\n");
        b += strcspn(b, "\n");
        a += *a == '\n';
        b += *b == '\n';
    }
}

bool find_parting(int own, struct parting *parting) {
    *parting = (struct parting){.other = -1, .choice = 0};
    for (int i = 0; i < result_count; i++) {
        const char *mine, *theirs;
        if (i == own || results[i].choices == NULL || results[own].choices == NULL) continue;
        int lines = common(results[own].choices, results[i].choices, &mine, &theirs);
        if (*mine == '\0' || *theirs == '\0' || lines < parting->choice) continue;
        *parting = (struct parting){i, lines + 1, mine, theirs};
    }
    return parting->other >= 0;
}

/* ---- telling ---- */

static int by_weight(const void *a, const void *b) {
    const struct result *x = a, *y = b;
    return kombazily_result_is_before(x->weight, (uint64_t)x->first, y->weight, (uint64_t)y->first) ? -1 : 1;
}

/* The place of the result, among so many, that reads as this one does; -1: none. */
static int reads_as(const struct result *it, int among) {
    for (int i = 0; i < among; i++)
        if (results[i].has_places && it->has_places && results[i].ending == it->ending &&
            strcmp(results[i].words, it->words) == 0 && strcmp(results[i].output, it->output) == 0)
            return i;
    return -1;
}

/* The first call that can't be explored, or NULL: there is none. */
static const char *said_of_unexplored(void) {
    static char said[LONGEST_HEAD];
    for (int i = 0; i < result_count; i++)
        for (int k = 0; k < results[i].finding_count; k++) {
            const struct finding *it = &results[i].findings[k];
            char place[400];
            if (it->kind != CANT_EXPLORE) continue;
            say_place(it->places[0].frames, it->places[0].count, place, sizeof place);
            snprintf(said, sizeof said, "can't be explored: %s at %s", it->places[0].name, place);
            return said;
        }
    return NULL;
}

void say_sends(bool synchronous, char *into, size_t room) {
    if (synchronous) snprintf(into, room, "sends and collectives that wait");
    else if (set.each) snprintf(into, room, "sends that wait or are buffered, by choice");
    else snprintf(into, room, "sends of up to %ld bytes that are buffered", set.buffered);
}

/* What the runs did that wasn't tried in all ways: how many such things, in words. */
static size_t untried(const char *words[]) {
    static char apart[120];
    size_t count = 0;
    snprintf(apart, sizeof apart, "runs that make other choices than the first ones %ld or more places apart (--mix)",
             set.mix);
    if (counts.has_apart) words[count++] = apart;
    if (counts.has_kept) words[count++] = "ranks that leave MPI_Comm_dup or MPI_Comm_split before all are there";
    if (counts.has_ready) words[count++] = "ready sends";
    if (counts.has_parts) words[count++] = "what MPI_Waitsome or MPI_Testsome ends of more than six, but one and all";
    if (counts.has_cancelled) words[count++] = "whether a message or the cancel of its receive comes first";
    return count;
}

/* That every choice was tried, and what is excepted. */
static const char *said_of_all(void) {
    static char said[600];
    const char *words[8];
    const size_t count = untried(words);
    size_t at = (size_t)snprintf(said, sizeof said, "every choice was tried");
    if (counts.has_withheld)
        at += (size_t)snprintf(said + at, sizeof said - at, " in which at most %d look%s in a row say%s no (--noes K)",
                               set.noes, set.noes == 1 ? "" : "s", set.noes == 1 ? "s" : "");
    bool is_silent = false;
    for (int i = 0; i < result_count; i++) is_silent |= results[i].ending == SILENT;
    if (is_silent) at += (size_t)snprintf(said + at, sizeof said - at, ", up to where a rank is silent");
    for (size_t i = 0; i < count; i++)
        at += (size_t)snprintf(said + at, sizeof said - at, "%s%s",
                               i == 0          ? ", but for "
                               : i + 1 < count ? ", "
                                               : " and for ",
                               words[i]);
    return said;
}

const char *said_of(const struct pass *pass) {
    if (pass->astray != NULL) return pass->astray;
    if (pass->stopped != 0) return "stopped by a signal, before every choice was tried";
    if (set.replay != NULL || set.followed != NULL) return "by the choices of the file";
    const char *unexplored = said_of_unexplored();
    if (unexplored != NULL) return unexplored;
    if (pass->runs == 0) return "not every choice was tried, and no run came to its end";
    if (!pass->is_all) return "not every choice was tried";
    for (int i = 0; i < result_count; i++)
        if (results[i].is_elsewhere)
            return "every choice that came up was tried, but the same ones led elsewhere: the program depends on "
                   "something else";
    return said_of_all();
}

static void tell_head(void) {
    const struct told_pass *it = &told_passes[told_pass_count - 1];
    printf("%s (%.2f s, %ld cut short, %lu calls, %lu choices)\n", it->line, it->seconds, it->cut,
           (unsigned long)it->calls, (unsigned long)it->choices);
}

/* Whether a rank's process ended by itself in a way that is told: what it printed may say why. */
static bool has_own_end(const struct result *it) {
    for (int i = 0; i < it->finding_count; i++) {
        const enum finding_kind kind = it->findings[i].kind;
        if (kind == KILLED || kind == NO_FINALIZE || kind == OTHER_STATUS) return true;
    }
    return false;
}

static void tell_result(int i, const struct told_result *told) {
    const struct result *it = &results[i];
    printf("result %d of %d, in %ld run%s: %s%s%s%s\n", told->number, told->of, told->runs, told->runs == 1 ? "" : "s",
           ending_word(told->ending), told->weight == 0 ? ", nothing to tell" : "",
           told->is_early ? " (perhaps: only where a look says no that could say yes, or tells of fewer than are there)"
                          : "",
           told->is_odd ? " (perhaps: no one order of arrival gives this, but MPI allows it)" : "");
    for (int k = 0; k < told_row_count; k++)
        if (told_rows[k].result == told_result_count - 1) printf("  %s\n", told_rows[k].it.words);
    if (told->choice > 0)
        printf("  it parts from result %d at choice %d: %s\n    and there: %s\n", told->other, told->choice, told->here,
               told->there);
    const bool is_worth_it = result_count > 1 || has_own_end(it);
    if (set.shows_output || (is_worth_it && !set.quiet)) fputs(it->output, stdout);
}

static uint32_t weight_of_pass(const struct pass *pass) {
    uint32_t *weights = malloc(((size_t)result_count + 1) * sizeof *weights);
    if (weights == NULL) fail(STATUS_START, "no memory", "");
    for (int i = 0; i < result_count; i++) weights[i] = results[i].weight;
    const uint32_t weight = kombazily_weight_of_pass(weights, (size_t)result_count, pass->astray != NULL);
    free(weights);
    return weight;
}

static bool needs_places(const struct result *it) {
    return it->weight > 0 || result_count > 1 || set.out != NULL || set.html != NULL;
}

/* Results are run once more, for their lines, and those that read the same are one. Whether the program went elsewhere
 * stands in the head, which counts the search alone. */
static void merge_results(bool synchronous) {
    const struct counts explored = counts;
    int kept = 0;
    for (int i = 0; i < result_count; i++) {
        struct result *it = &results[i];
        if ((kept < set.results || set.counts_only) && needs_places(it)) (void)find_places(it, synchronous);
        if (it->ending == LATE && it->choices == NULL && (result_count > 1 || set.out != NULL))
            find_choices_of_cut(it, synchronous);
        const int same = reads_as(it, kept);
        if (same < 0) {
            results[kept++] = *it;
            continue;
        }
        results[same].runs += it->runs;
        results[same].is_early &= it->is_early;
        results[same].is_odd &= it->is_odd;
        results[same].is_elsewhere |= it->is_elsewhere;
        free_result(it);
    }
    result_count = kept;
    counts = explored;
}

uint32_t tell_results(const struct pass *pass) {
    const bool is_text = set.format == FORMAT_TEXT;
    if (result_count > 1) qsort(results, (size_t)result_count, sizeof *results, by_weight);
    merge_results(pass->synchronous);
    told_begin(pass);
    if (is_text) tell_head();
    if (set.counts_only && is_text) printf("%d result%s\n", result_count, result_count == 1 ? "" : "s");
    for (int i = 0; i < result_count && !set.counts_only && i < set.results; i++) {
        const struct result *it = &results[i];
        const struct told_result *told = told_add(i);
        if (it->is_elsewhere && is_text)
            printf("  (the same choices led elsewhere: it depends on something else, too)\n");
        if (set.out != NULL) write_choices(it, i + 1, pass->synchronous);
        if (is_text) tell_result(i, told);
    }
    put_form();
    return weight_of_pass(pass);
}
