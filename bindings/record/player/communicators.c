/* Communicators of a record: see play.h. */
#include "play.h"

#include <stdlib.h>

enum { WORLD, SELF };

static MPI_Comm *all;
static int count;

static MPI_Comm *place_of(int own) {
    if (own < 0) give_up("no such communicator", "");
    if (own >= count) {
        all = realloc(all, (size_t)(own + 1) * sizeof *all);
        if (all == NULL) give_up("no memory for a communicator", "");
        while (count <= own) all[count++] = MPI_COMM_NULL;
    }
    return &all[own];
}

void open_communicators(void) {
    *place_of(WORLD) = MPI_COMM_WORLD;
    *place_of(SELF) = MPI_COMM_SELF;
}

MPI_Comm comm_of(const char *word) { return *place_of(number(word)); }

static void play_dup(char **w) {
    MPI_Comm made;
    MPI_Comm_dup(comm_of(w[1]), &made);
    *place_of(number(w[0])) = made;
}

/* REQUEST NEW OLD. This library has the handle at once. */
static void play_idup(char **w) {
    MPI_Comm made;
    MPI_Request request;
    MPI_Comm_idup(comm_of(w[2]), &made, &request);
    add_part(request_of(w[0]), request, NULL);
    *place_of(number(w[1])) = made;
}

/* NEW OLD COLOUR KEY. */
static void play_split(char **w) {
    const int colour = w[2][0] == 'n' ? MPI_UNDEFINED : number(w[2]);
    MPI_Comm made;
    MPI_Comm_split(comm_of(w[1]), colour, number(w[3]), &made);
    *place_of(number(w[0])) = made;
}

static void play_drop(const char *word) {
    MPI_Comm *it = place_of(number(word));
    if (*it != MPI_COMM_NULL) MPI_Comm_free(it);
}

bool play_communicators(const struct line *line) {
    if (is_word(line, "dup")) play_dup(line->words + 1);
    else if (is_word(line, "idup")) play_idup(line->words + 1);
    else if (is_word(line, "split")) play_split(line->words + 1);
    else if (is_word(line, "drop")) play_drop(line->words[1]);
    else return false;
    return true;
}
