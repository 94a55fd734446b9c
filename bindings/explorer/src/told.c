/* The records of what is told: see told.h. */
#define _GNU_SOURCE
#include "told.h"

#include <stdlib.h>
#include <string.h>

struct told_pass *told_passes;
struct told_result *told_results;
struct told_row *told_rows;
int told_pass_count, told_result_count, told_row_count;
static int *passes_of_results;

static void *one_more_of(void *row, int count, size_t each) {
    void *made = realloc(row, ((size_t)count + 1) * each);
    if (made == NULL) fail(STATUS_START, "no memory", "");
    return made;
}

static const char *kind_word(enum finding_kind kind) {
    static const char *const words[] = {[REQUEST_LEFT] = "request-left",
                                        [COMMUNICATOR_LEFT] = "communicator-left",
                                        [TYPES_LEFT] = "type-left",
                                        [MESSAGES_TAKEN] = "message-taken",
                                        [NEVER_RECEIVED] = "never-received",
                                        [NEEDS_BUFFER] = "needs-buffer",
                                        [WAITS] = "waits",
                                        [ASKS_FOR_EVER] = "asks-for-ever",
                                        [IN_FINALIZE] = "in-finalize",
                                        [CYCLE] = "cycle",
                                        [DIFFERS] = "collective-differs",
                                        [NEVER_ENTERED] = "collective-not-entered",
                                        [CALL_FAILED] = "error",
                                        [ERROR_RETURNED] = "error-returned",
                                        [ABORTED] = "abort",
                                        [COMPUTES] = "silent",
                                        [KILLED] = "killed",
                                        [NO_FINALIZE] = "no-finalize",
                                        [OTHER_STATUS] = "status",
                                        [RECORD_ENDS] = "record-ends",
                                        [CANCEL_RACES] = "cancel-races",
                                        [BUFFER_MISUSED] = "buffer-misused",
                                        [STOOD_THERE] = "never-ended",
                                        [CANT_EXPLORE] = "cant-explore",
                                        [READY_EARLY] = "ready-early"};
    const bool is_known = (size_t)kind < sizeof words / sizeof *words && words[kind] != NULL;
    return is_known ? words[kind] : "other";
}

struct told told_of(const struct finding *it) {
    struct told made = {.kind = kind_word(it->kind), .weight = it->weight, .rank = it->rank};
    if (it->rank >= set.size) made.rank = -1;
    for (int i = 0; i < it->place_count; i++)
        if (source_lines(it->places[i].frames, it->places[i].count, &made.at[made.place_count], 1) == 1)
            made.place_count++;
    say_finding(it, made.words, sizeof made.words);
    return made;
}

static void add_row(int result, const struct told *it) {
    told_rows = one_more_of(told_rows, told_row_count, sizeof *told_rows);
    told_rows[told_row_count++] = (struct told_row){told_pass_count - 1, result, *it};
}

void told_begin(const struct pass *pass) {
    struct told_pass made = {.waits = pass->synchronous,
                             .is_all = pass->is_all,
                             .is_astray = pass->astray != NULL,
                             .is_unexplored = counts.is_unexplored,
                             .ranks = set.size,
                             .results = result_count,
                             .runs = pass->runs,
                             .cut = pass->cut,
                             .seconds = pass->took,
                             .calls = counts.asks,
                             .choices = counts.moves};
    snprintf(made.said, sizeof made.said, "%s", said_of(pass));
    char sends[80];
    say_sends(pass->synchronous, sends, sizeof sends);
    snprintf(made.line, sizeof made.line, "with %s: %d rank%s, %ld run%s: %s", sends, set.size,
             set.size == 1 ? "" : "s", pass->runs, pass->runs == 1 ? "" : "s", made.said);
    told_passes = one_more_of(told_passes, told_pass_count, sizeof *told_passes);
    told_passes[told_pass_count++] = made;
    struct told astray = {.kind = "astray", .rank = -1};
    snprintf(astray.words, sizeof astray.words, "%s", made.said);
    if (made.is_astray) add_row(-1, &astray);
}

/* Where a result parts from the one that is nearest to it. */
static void find_choice(int own, struct told_result *made) {
    struct parting parting;
    uint64_t frames[EXPLORER_FRAMES];
    if (!find_parting(own, &parting)) return;
    made->other = parting.other + 1;
    made->choice = parting.choice;
    say_choice(parting.mine, made->here, sizeof made->here);
    say_choice(parting.theirs, made->there, sizeof made->there);
    (void)source_lines(frames, frames_of_choice(parting.mine, frames), &made->choice_at, 1);
}

const struct told_result *told_add(int result) {
    const struct result *it = &results[result];
    struct told_result made = {.number = result + 1,
                               .of = result_count,
                               .runs = it->runs,
                               .ending = it->ending,
                               .weight = it->weight,
                               .is_early = it->is_early && it->weight > 0,
                               .is_odd = it->is_odd};
    if (result_count > 1 && (result > 0 || it->weight > 0)) find_choice(result, &made);
    told_results = one_more_of(told_results, told_result_count, sizeof *told_results);
    passes_of_results = one_more_of(passes_of_results, told_result_count, sizeof *passes_of_results);
    told_results[told_result_count] = made;
    passes_of_results[told_result_count++] = told_pass_count - 1;
    for (int i = 0; i < it->finding_count; i++) {
        const struct told told = told_of(&it->findings[i]);
        add_row(told_result_count - 1, &told);
    }
    return &told_results[told_result_count - 1];
}

int pass_of_told(int result) { return passes_of_results[result]; }
