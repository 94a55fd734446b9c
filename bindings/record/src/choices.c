/* What the program leaves to the MPI: whose message a receive of any source takes, or a probe sees. A schedule may have
 * it for some of them: lines RANK CHOICE SOURCE of the file that KOMBAZILY_STEER names. See record.h. */
#include "record.h"

#include <stdio.h>
#include <stdlib.h>

static struct {
    int *of; /* by the number of the choice */
    long room;
} schedule;
static long choices;

/* What probes saw for which no receive came yet. */
enum { MOST_SEEN = 16 };
static struct seen {
    long choice; /* or 0 */
    MPI_Comm comm;
    int source, tag;
} all_seen[MOST_SEEN];

static void steer_one(long choice, int source) {
    enum { MOST_CHOICES = 10000000 };
    if (choice < 1 || choice > MOST_CHOICES) return;
    if (choice >= schedule.room) {
        schedule.of = realloc(schedule.of, (size_t)(choice + 1) * sizeof *schedule.of);
        if (schedule.of == NULL) abort();
        while (schedule.room <= choice) schedule.of[schedule.room++] = MPI_ANY_SOURCE;
    }
    schedule.of[choice] = source;
}

void open_choices(int rank) {
    const char *name = getenv("KOMBAZILY_STEER");
    FILE *from = name != NULL ? fopen(name, "r") : NULL;
    int whose, source;
    long choice;
    while (from != NULL && fscanf(from, "%d %ld %d", &whose, &choice, &source) == 3)
        if (whose == rank) steer_one(choice, source);
    if (from != NULL) fclose(from);
}

long next_choice(void) { return ++choices; }

int steered(int source) {
    const long next = choices + 1;
    return source == MPI_ANY_SOURCE && next < schedule.room ? schedule.of[next] : source;
}

long choice_of(int source) { return source == MPI_ANY_SOURCE ? next_choice() : 0; }

void note_seen(long choice, MPI_Comm comm, int source, int tag, const MPI_Status *status) {
    const bool is_open = source == MPI_ANY_SOURCE || tag == MPI_ANY_TAG;
    int at = 0;
    while (at < MOST_SEEN - 1 && all_seen[at].choice != 0 &&
           !(all_seen[at].comm == comm && all_seen[at].source == status->MPI_SOURCE &&
             all_seen[at].tag == status->MPI_TAG))
        at++;
    if (is_open) all_seen[at] = (struct seen){choice, comm, status->MPI_SOURCE, status->MPI_TAG};
}

long seen_by(MPI_Comm comm, int source, int tag) {
    for (int i = 0; i < MOST_SEEN; i++) {
        struct seen *it = &all_seen[i];
        if (it->choice == 0 || it->comm != comm || it->source != source) continue;
        if (tag != MPI_ANY_TAG && tag != it->tag) continue;
        const long choice = it->choice;
        it->choice = 0;
        return choice;
    }
    return 0;
}

/* ---- words ---- */

static char *word(void) {
    static _Thread_local char words[4][16];
    static _Thread_local int turn;
    turn = (turn + 1) % 4;
    return words[turn];
}

const char *rank_word(int rank) {
    char *into = word();
    if (rank == MPI_PROC_NULL) return "none";
    if (rank == MPI_ANY_SOURCE) return "any";
    snprintf(into, 16, "%d", rank);
    return into;
}

const char *tag_word(int tag) {
    char *into = word();
    if (tag == MPI_ANY_TAG) return "any";
    snprintf(into, 16, "%d", tag);
    return into;
}
