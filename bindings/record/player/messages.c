/* Sends, receives and probes of a record: see play.h. */
#include "play.h"

#include <stdlib.h>
#include <string.h>

/* What probes saw, by their choices. */
static struct seen {
    MPI_Status status;
    MPI_Message message;
} * all_seen;
static long seen_count;

static struct seen *seen_of(const char *word) {
    const long choice = number(word);
    if (choice < 0) give_up("no such choice: ", word);
    if (choice >= seen_count) {
        all_seen = realloc(all_seen, (size_t)(choice + 1) * sizeof *all_seen);
        if (all_seen == NULL) give_up("no memory for a probe", "");
        memset(all_seen + seen_count, 0, (size_t)(choice + 1 - seen_count) * sizeof *all_seen);
        seen_count = choice + 1;
    }
    return &all_seen[choice];
}

/* ---- sends ---- */

/* MODE COMM TARGET TAG COUNT TYPE: the request where it is begun, MPI_REQUEST_NULL where it is waited for. */
static MPI_Request send(char **w, bool is_begun, void *from) {
    typedef int blocking(const void *, int, MPI_Datatype, int, int, MPI_Comm);
    typedef int beginning(const void *, int, MPI_Datatype, int, int, MPI_Comm, MPI_Request *);
    const char mode = w[0][0];
    const MPI_Comm comm = comm_of(w[1]);
    const MPI_Datatype type = type_of(w[5]);
    MPI_Request request = MPI_REQUEST_NULL;
    /* A ready send has its receive, or the program is wrong; here it is a standard one. */
    beginning *begin = mode == 's' && w[0][1] == 'y' ? MPI_Issend : mode == 'b' ? MPI_Ibsend : MPI_Isend;
    blocking *make = mode == 's' && w[0][1] == 'y' ? MPI_Ssend : mode == 'b' ? MPI_Bsend : MPI_Send;
    if (is_begun) begin(from, number(w[4]), type, rank_of(w[2]), tag_of(w[3]), comm, &request);
    else make(from, number(w[4]), type, rank_of(w[2]), tag_of(w[3]), comm);
    return request;
}

static void play_send(const struct line *line) {
    void *from = room_of(number(line->words[5]), type_of(line->words[6]));
    (void)send(line->words + 1, false, from);
    free(from);
}

static void play_isend(const struct line *line) {
    void *from = room_of(number(line->words[6]), type_of(line->words[7]));
    add_part(request_of(line->words[1]), send(line->words + 2, true, from), from);
}

/* ---- receives ---- */

/* A receive as it is played. */
struct receive {
    MPI_Comm comm;
    int source, tag, count;
    MPI_Datatype type;
    long choice;
};

/* The source by which one of any source is played: of this line, which was made from `steered`. */
static int source_of(const struct line *line, const char *source, const char *steered) {
    if (!set.pinned || rank_of(source) != MPI_ANY_SOURCE) return rank_of(source);
    return line->has_taken ? line->source : set.steered ? rank_of(steered) : MPI_ANY_SOURCE;
}

/* COMM SOURCE TAG COUNT TYPE CHOICE SEEN STEERED. One that is for what a probe saw takes what that saw here. */
static struct receive receive_of(const struct line *line, char **w) {
    struct receive it = {comm_of(w[0]), source_of(line, w[1], w[7]), tag_of(w[2]), number(w[3]), type_of(w[4]),
                         number(w[5])};
    if (set.pinned || number(w[6]) == 0) return it;
    const MPI_Status *seen = &seen_of(w[6])->status;
    int count = MPI_UNDEFINED;
    it.source = seen->MPI_SOURCE;
    if (it.tag != MPI_ANY_TAG) it.tag = seen->MPI_TAG;
    MPI_Get_count(seen, it.type, &count);
    if (count != MPI_UNDEFINED && count > it.count) it.count = count;
    return it;
}

static void play_recv(const struct line *line) {
    const struct receive it = receive_of(line, line->words + 1);
    void *into = room_of(it.count, it.type);
    MPI_Status status;
    memset(&status, 0, sizeof status);
    MPI_Recv(into, it.count, it.type, it.source, it.tag, it.comm, &status);
    tell_choice(it.choice, &status);
    free(into);
}

static void play_irecv(const struct line *line) {
    const struct receive it = receive_of(line, line->words + 2);
    void *into = room_of(it.count, it.type);
    MPI_Request request = MPI_REQUEST_NULL;
    MPI_Irecv(into, it.count, it.type, it.source, it.tag, it.comm, &request);
    request_of(line->words[1])->choice = it.choice;
    add_part(request_of(line->words[1]), request, into);
}

/* ---- probes ---- */

/* CHOICE COMM SOURCE TAG STEERED. */
static void play_probe(const struct line *line, bool takes_out) {
    char **w = line->words + 1;
    struct seen *seen = seen_of(w[0]);
    const int source = source_of(line, w[2], w[4]);
    if (takes_out) MPI_Mprobe(source, tag_of(w[3]), comm_of(w[1]), &seen->message, &seen->status);
    else MPI_Probe(source, tag_of(w[3]), comm_of(w[1]), &seen->status);
    tell_choice(number(w[0]), &seen->status);
}

/* CHOICE COUNT TYPE: a message that a probe took out. */
static void play_matched(const struct line *line, bool is_begun) {
    char **w = line->words + (is_begun ? 2 : 1);
    struct seen *seen = seen_of(w[0]);
    const MPI_Datatype type = type_of(w[2]);
    int count = number(w[1]), there = MPI_UNDEFINED;
    if (!set.pinned) MPI_Get_count(&seen->status, type, &there);
    if (there != MPI_UNDEFINED && there > count) count = there;
    void *into = room_of(count, type);
    MPI_Request request = MPI_REQUEST_NULL;
    if (is_begun) {
        MPI_Imrecv(into, count, type, &seen->message, &request);
        add_part(request_of(line->words[1]), request, into);
        return;
    }
    MPI_Mrecv(into, count, type, &seen->message, MPI_STATUS_IGNORE);
    free(into);
}

void look_for(char **words) {
    int is_there = 0;
    while (!is_there) MPI_Iprobe(rank_of(words[1]), tag_of(words[2]), comm_of(words[0]), &is_there, MPI_STATUS_IGNORE);
}

bool play_messages(const struct line *line) {
    if (is_word(line, "send")) play_send(line);
    else if (is_word(line, "isend")) play_isend(line);
    else if (is_word(line, "recv")) play_recv(line);
    else if (is_word(line, "irecv")) play_irecv(line);
    else if (is_word(line, "probe")) play_probe(line, false);
    else if (is_word(line, "mprobe")) play_probe(line, true);
    else if (is_word(line, "mrecv")) play_matched(line, false);
    else if (is_word(line, "imrecv")) play_matched(line, true);
    else return false;
    return true;
}
