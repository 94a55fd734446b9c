/* Collectives of a record: see play.h. */
#include "play.h"

#include <stdlib.h>
#include <string.h>

/* One side of a collective: COUNT TYPE, or a row COUNT,COUNT,.. TYPE, or `=` in place, or `-` none. */
struct side {
    int count, *row, *places;
    MPI_Datatype type;
    void *room; /* what is handed over */
    void *own;
};

static int size_of(MPI_Comm comm) {
    int size = 1;
    MPI_Comm_size(comm, &size);
    return size;
}

static void read_row(struct side *it, const char *word, int size) {
    it->row = calloc((size_t)size + 1, sizeof *it->row);
    it->places = calloc((size_t)size + 1, sizeof *it->places);
    if (it->row == NULL || it->places == NULL) give_up("no memory for a collective", "");
    for (int i = 0; i < size; i++) {
        it->row[i] = number(word);
        it->places[i + 1] = it->places[i] + it->row[i];
        const char *comma = strchr(word, ',');
        word = comma == NULL ? word : comma + 1;
    }
}

/* A side of which each rank has a part where it is whole. */
static struct side side_of(char **w, MPI_Comm comm, bool is_whole) {
    const int size = size_of(comm);
    struct side it = {.count = number(w[0]), .type = type_of(w[1])};
    if (w[0][0] == '=') it.room = MPI_IN_PLACE;
    if (w[0][0] == '=' || w[0][0] == '-') return it;
    if (strchr(w[0], ',') != NULL) read_row(&it, w[0], size);
    const long total = it.row != NULL ? it.places[size] : is_whole ? (long)size * it.count : it.count;
    it.room = it.own = room_of(total, it.type);
    return it;
}

static void drop(struct side *it) { free(it->row), free(it->places), free(it->own); }

static bool is(const char *kind, const char *word) { return strcmp(kind, word) == 0; }

/* In place, the other side has the data. */
static int reduce(const char *kind, struct side *s, struct side *r, MPI_Op op, int root, MPI_Comm comm) {
    const struct side *data = s->own != NULL ? s : r;
    if (is(kind, "reduce")) return MPI_Reduce(s->room, r->room, data->count, data->type, op, root, comm);
    if (is(kind, "allreduce")) return MPI_Allreduce(s->room, r->room, data->count, data->type, op, comm);
    if (is(kind, "scan")) return MPI_Scan(s->room, r->room, data->count, data->type, op, comm);
    if (is(kind, "exscan")) return MPI_Exscan(s->room, r->room, data->count, data->type, op, comm);
    if (is(kind, "reduce_scatter")) return MPI_Reduce_scatter(s->room, r->room, data->row, data->type, op, comm);
    return MPI_Reduce_scatter_block(s->room, r->room, data->count, data->type, op, comm);
}

static int move(const char *kind, struct side *s, struct side *r, int root, MPI_Comm comm) {
    if (is(kind, "barrier")) return MPI_Barrier(comm);
    if (is(kind, "bcast")) return MPI_Bcast(s->room, s->count, s->type, root, comm);
    if (is(kind, "gather")) return MPI_Gather(s->room, s->count, s->type, r->room, r->count, r->type, root, comm);
    if (is(kind, "gatherv"))
        return MPI_Gatherv(s->room, s->count, s->type, r->room, r->row, r->places, r->type, root, comm);
    if (is(kind, "scatter")) return MPI_Scatter(s->room, s->count, s->type, r->room, r->count, r->type, root, comm);
    if (is(kind, "scatterv"))
        return MPI_Scatterv(s->room, s->row, s->places, s->type, r->room, r->count, r->type, root, comm);
    if (is(kind, "allgather")) return MPI_Allgather(s->room, s->count, s->type, r->room, r->count, r->type, comm);
    if (is(kind, "allgatherv"))
        return MPI_Allgatherv(s->room, s->count, s->type, r->room, r->row, r->places, r->type, comm);
    if (is(kind, "alltoall")) return MPI_Alltoall(s->room, s->count, s->type, r->room, r->count, r->type, comm);
    return MPI_Alltoallv(s->room, s->row, s->places, s->type, r->room, r->row, r->places, r->type, comm);
}

/* ---- those that don't wait ---- */

static MPI_Request begin_reduction(const char *kind, struct side *s, struct side *r, MPI_Op op, int root,
                                   MPI_Comm comm) {
    const struct side *data = s->own != NULL ? s : r;
    MPI_Request q = MPI_REQUEST_NULL;
    if (is(kind, "reduce")) MPI_Ireduce(s->room, r->room, data->count, data->type, op, root, comm, &q);
    else if (is(kind, "allreduce")) MPI_Iallreduce(s->room, r->room, data->count, data->type, op, comm, &q);
    else if (is(kind, "scan")) MPI_Iscan(s->room, r->room, data->count, data->type, op, comm, &q);
    else if (is(kind, "exscan")) MPI_Iexscan(s->room, r->room, data->count, data->type, op, comm, &q);
    else if (is(kind, "reduce_scatter")) MPI_Ireduce_scatter(s->room, r->room, data->row, data->type, op, comm, &q);
    else MPI_Ireduce_scatter_block(s->room, r->room, data->count, data->type, op, comm, &q);
    return q;
}

static MPI_Request begin_move(const char *kind, struct side *s, struct side *r, int root, MPI_Comm comm) {
    MPI_Request q = MPI_REQUEST_NULL;
    if (is(kind, "barrier")) MPI_Ibarrier(comm, &q);
    else if (is(kind, "bcast")) MPI_Ibcast(s->room, s->count, s->type, root, comm, &q);
    else if (is(kind, "gather")) MPI_Igather(s->room, s->count, s->type, r->room, r->count, r->type, root, comm, &q);
    else if (is(kind, "gatherv"))
        MPI_Igatherv(s->room, s->count, s->type, r->room, r->row, r->places, r->type, root, comm, &q);
    else if (is(kind, "scatter")) MPI_Iscatter(s->room, s->count, s->type, r->room, r->count, r->type, root, comm, &q);
    else if (is(kind, "scatterv"))
        MPI_Iscatterv(s->room, s->row, s->places, s->type, r->room, r->count, r->type, root, comm, &q);
    else if (is(kind, "allgather")) MPI_Iallgather(s->room, s->count, s->type, r->room, r->count, r->type, comm, &q);
    else if (is(kind, "allgatherv"))
        MPI_Iallgatherv(s->room, s->count, s->type, r->room, r->row, r->places, r->type, comm, &q);
    else if (is(kind, "alltoall")) MPI_Ialltoall(s->room, s->count, s->type, r->room, r->count, r->type, comm, &q);
    else MPI_Ialltoallv(s->room, s->row, s->places, s->type, r->room, r->row, r->places, r->type, comm, &q);
    return q;
}

/* ---- both ---- */

/* KIND COMM ROOT OP, and two sides; of one that doesn't wait, the request that ends it. */
static void play_coll(char **w, struct played *later) {
    const MPI_Comm comm = comm_of(w[1]);
    const char *kind = w[0];
    const int root = number(w[2]);
    bool is_reduction = w[3][0] != '-';
    bool sends_all = is(kind, "scatter") || is(kind, "alltoall") || is(kind, "reduce_scatter_block");
    bool receives_all = is(kind, "gather") || is(kind, "allgather") || is(kind, "alltoall") || is_reduction;
    struct side s = side_of(w + 4, comm, sends_all), r = side_of(w + 6, comm, receives_all);
    if (later == NULL) {
        if (is_reduction) reduce(kind, &s, &r, op_of(w[3]), root, comm);
        else move(kind, &s, &r, root, comm);
    } else {
        const MPI_Request q = is_reduction ? begin_reduction(kind, &s, &r, op_of(w[3]), root, comm)
                                           : begin_move(kind, &s, &r, root, comm);
        add_part(later, q, s.own);
        add_part(later, MPI_REQUEST_NULL, r.own);
        s.own = r.own = NULL;
    }
    drop(&s);
    drop(&r);
}

bool play_collectives(const struct line *line) {
    if (is_word(line, "coll")) play_coll(line->words + 1, NULL);
    else if (is_word(line, "icoll")) play_coll(line->words + 2, request_of(line->words[1]));
    else return false;
    return true;
}
