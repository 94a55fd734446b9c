/* Plays a list of collectives, and tells of what each member got: reference.py says what that has to be.
 *
 * usage: player FILE, as ranks of an MPI. A line of FILE: `KIND WAITS COMM ROOT COUNT OPERATION IN_PLACE SEED` begins a
 * collective; `end` ends those that are begun, the even ranks from the first one on, the others from the last one on.
 * KIND is a place in `kinds`. What is handed in is made of SEED; counts of blocks with lengths of their own, too. */
#include <mpi.h>

#include <stdio.h>
#include <stdlib.h>
#include <string.h>

enum { MOST = 4, ROOM = 1 << 16, MOST_RANKS = 16, LINES = 1000, EMPTY = 0x5a };

/* A collective that is on its way. */
struct begun {
    int line, kind, waits, root, count, operation, is_in_place, rank, size, words;
    unsigned seed;
    MPI_Comm comm;
    MPI_Request request;
    unsigned in[ROOM], out[ROOM];
    int counts[MOST_RANKS], places[MOST_RANKS], other_counts[MOST_RANKS], other_places[MOST_RANKS];
    MPI_Datatype types[MOST_RANKS];
};
static struct begun slots[MOST];
static int slot_count, world_rank;
static MPI_Comm comms[3];
static MPI_Op operations[8];
static char told[LINES * 40];

static unsigned mixed(unsigned one, unsigned two, unsigned three) {
    unsigned x = one * 2654435761u + two * 2246822519u + three * 3266489917u + 374761393u;
    x ^= x >> 15;
    x *= 2246822519u;
    return x ^ x >> 13;
}

/* Maps x -> a * x + b in pairs: the first one, and then the second. Their order counts. */
static void compose(void *in, void *inout, int *len, MPI_Datatype *type) {
    const unsigned *first = in;
    unsigned *second = inout;
    (void)type;
    for (int at = 0; at + 1 < *len; at += 2) {
        unsigned a = first[at] * second[at], b = second[at] * first[at + 1] + second[at + 1];
        second[at] = a, second[at + 1] = b;
    }
}

static unsigned long adler(const unsigned char *bytes, size_t count) {
    unsigned long one = 1, two = 0;
    for (size_t at = 0; at < count; at++) one = (one + bytes[at]) % 65521, two = (two + one) % 65521;
    return two << 16 | one;
}

/* How many items go from one member to another, in a collective whose blocks have lengths of their own. */
static int count_of(const struct begun *it, int from, int to) {
    return (int)(mixed(it->seed, (unsigned)(64 * from + to), 77) % (unsigned)(it->count + 1)) & ~1;
}

/* Blocks stand `count` + 3 items apart. */
static void list_counts(struct begun *it, int is_by_pair) {
    for (int member = 0; member < it->size; member++) {
        it->counts[member] = is_by_pair ? count_of(it, it->rank, member) : count_of(it, member, 0);
        it->other_counts[member] = is_by_pair ? count_of(it, member, it->rank) : it->counts[member];
        it->places[member] = it->other_places[member] = member * (it->count + 3);
        it->types[member] = MPI_UNSIGNED;
    }
}

#define ASK(blocking, nonblocking) (it->waits ? blocking : nonblocking)
#define OWN MPI_UNSIGNED
/* What is handed in stands where the result comes. */
#define IN_PLACE(from, items)                                                                                          \
    (it->is_in_place ? memcpy(it->out + (from), it->in, 4 * (size_t)(items)), MPI_IN_PLACE : (void *)it->in)

static void begin_exchange(struct begun *it) {
    const int n = it->count, me = it->rank;
    void *in;
    list_counts(it, it->kind >= 3);
    switch (it->kind) {
    case 0:
        in = IN_PLACE(me * n, n);
        ASK(MPI_Allgather(in, n, OWN, it->out, n, OWN, it->comm),
            MPI_Iallgather(in, n, OWN, it->out, n, OWN, it->comm, &it->request));
        break;
    case 1:
        in = IN_PLACE(it->places[me], it->counts[me]);
        ASK(MPI_Allgatherv(in, it->counts[me], OWN, it->out, it->counts, it->places, OWN, it->comm),
            MPI_Iallgatherv(in, it->counts[me], OWN, it->out, it->counts, it->places, OWN, it->comm, &it->request));
        break;
    case 2:
        in = IN_PLACE(0, n * it->size);
        ASK(MPI_Alltoall(in, n, OWN, it->out, n, OWN, it->comm),
            MPI_Ialltoall(in, n, OWN, it->out, n, OWN, it->comm, &it->request));
        break;
    case 3:
        ASK(MPI_Alltoallv(it->in, it->counts, it->places, OWN, it->out, it->other_counts, it->other_places, OWN,
                          it->comm),
            MPI_Ialltoallv(it->in, it->counts, it->places, OWN, it->out, it->other_counts, it->other_places, OWN,
                           it->comm, &it->request));
        break;
    }
}

static void begin_alltoallw(struct begun *it) {
    list_counts(it, 1);
    for (int member = 0; member < it->size; member++) it->places[member] *= 4, it->other_places[member] *= 4;
    ASK(MPI_Alltoallw(it->in, it->counts, it->places, it->types, it->out, it->other_counts, it->other_places, it->types,
                      it->comm),
        MPI_Ialltoallw(it->in, it->counts, it->places, it->types, it->out, it->other_counts, it->other_places,
                       it->types, it->comm, &it->request));
}

static void begin_rooted(struct begun *it) {
    const int n = it->count, me = it->rank;
    list_counts(it, 0);
    switch (it->kind) {
    case 5:
        ASK(MPI_Gather(it->in, n, OWN, it->out, n, OWN, it->root, it->comm),
            MPI_Igather(it->in, n, OWN, it->out, n, OWN, it->root, it->comm, &it->request));
        break;
    case 6:
        ASK(MPI_Gatherv(it->in, it->counts[me], OWN, it->out, it->counts, it->places, OWN, it->root, it->comm),
            MPI_Igatherv(it->in, it->counts[me], OWN, it->out, it->counts, it->places, OWN, it->root, it->comm,
                         &it->request));
        break;
    case 7:
        ASK(MPI_Scatter(it->in, n, OWN, it->out, n, OWN, it->root, it->comm),
            MPI_Iscatter(it->in, n, OWN, it->out, n, OWN, it->root, it->comm, &it->request));
        break;
    case 8:
        ASK(MPI_Scatterv(it->in, it->counts, it->places, OWN, it->out, it->counts[me], OWN, it->root, it->comm),
            MPI_Iscatterv(it->in, it->counts, it->places, OWN, it->out, it->counts[me], OWN, it->root, it->comm,
                          &it->request));
        break;
    case 9:
        if (me == it->root) memcpy(it->out, it->in, 4 * (size_t)n);
        ASK(MPI_Bcast(it->out, n, OWN, it->root, it->comm),
            MPI_Ibcast(it->out, n, OWN, it->root, it->comm, &it->request));
        break;
    }
}

static void begin_reduction(struct begun *it) {
    const int n = it->count;
    MPI_Op op = operations[it->operation];
    void *in = it->kind == 10 && it->rank != it->root ? it->in : IN_PLACE(0, n);
    switch (it->kind) {
    case 10:
        ASK(MPI_Reduce(in, it->out, n, OWN, op, it->root, it->comm),
            MPI_Ireduce(in, it->out, n, OWN, op, it->root, it->comm, &it->request));
        break;
    case 11:
        ASK(MPI_Allreduce(in, it->out, n, OWN, op, it->comm),
            MPI_Iallreduce(in, it->out, n, OWN, op, it->comm, &it->request));
        break;
    case 12:
        ASK(MPI_Scan(in, it->out, n, OWN, op, it->comm), MPI_Iscan(in, it->out, n, OWN, op, it->comm, &it->request));
        break;
    case 13:
        ASK(MPI_Exscan(in, it->out, n, OWN, op, it->comm),
            MPI_Iexscan(in, it->out, n, OWN, op, it->comm, &it->request));
        break;
    }
}

static void begin_scattered(struct begun *it) {
    const int n = it->count;
    MPI_Op op = operations[it->operation];
    int all = 0;
    list_counts(it, 0);
    for (int member = 0; member < it->size; member++) all += it->kind == 14 ? it->counts[member] : n;
    void *in = IN_PLACE(0, all);
    if (it->kind == 14)
        ASK(MPI_Reduce_scatter(in, it->out, it->counts, OWN, op, it->comm),
            MPI_Ireduce_scatter(in, it->out, it->counts, OWN, op, it->comm, &it->request));
    else
        ASK(MPI_Reduce_scatter_block(in, it->out, n, OWN, op, it->comm),
            MPI_Ireduce_scatter_block(in, it->out, n, OWN, op, it->comm, &it->request));
    /* In place what lies behind the result isn't told of. */
    it->words = it->kind == 14 ? it->counts[it->rank] : n;
}

static void begin(int line, const int words[8]) {
    struct begun *it = &slots[slot_count++];
    *it = (struct begun){.line = line, .kind = words[0], .waits = words[1], .comm = comms[words[2]], .count = words[4]};
    it->operation = words[5], it->is_in_place = words[6], it->seed = (unsigned)words[7];
    it->request = MPI_REQUEST_NULL;
    MPI_Comm_rank(it->comm, &it->rank);
    MPI_Comm_size(it->comm, &it->size);
    it->root = words[3] % it->size;
    it->words = it->size * (it->count + 3);
    memset(it->out, EMPTY, sizeof it->out);
    for (int at = 0; at < it->words; at++) it->in[at] = mixed(it->seed, (unsigned)world_rank, (unsigned)at) & 0x7fffffff;
    if (it->kind <= 3) begin_exchange(it);
    else if (it->kind == 4) begin_alltoallw(it);
    else if (it->kind <= 9) begin_rooted(it);
    else if (it->kind <= 13) begin_reduction(it);
    else if (it->kind <= 15) begin_scattered(it);
    else ASK(MPI_Barrier(it->comm), MPI_Ibarrier(it->comm, &it->request));
}

static void tell(const struct begun *it) {
    /* The result of the first member isn't defined (5.11.2). */
    unsigned long sum = it->kind == 13 && it->rank == 0 ? 0 : adler((const unsigned char *)it->out, 4 * (size_t)it->words);
    sprintf(told + strlen(told), "%d %d %lu\n", world_rank, it->line, sum);
}

static void end_all(void) {
    for (int step = 0; step < slot_count; step++) {
        struct begun *it = &slots[world_rank % 2 == 0 ? step : slot_count - 1 - step];
        int is_done = 0;
        while (step % 2 == 0 && !is_done) MPI_Test(&it->request, &is_done, MPI_STATUS_IGNORE);
        MPI_Wait(&it->request, MPI_STATUS_IGNORE);
    }
    for (int at = 0; at < slot_count; at++) tell(&slots[at]);
    slot_count = 0;
}

int main(int argc, char **argv) {
    char line[200];
    int number = 0, words[8];
    MPI_Init(&argc, &argv);
    MPI_Comm_rank(MPI_COMM_WORLD, &world_rank);
    comms[0] = MPI_COMM_WORLD;
    MPI_Comm_dup(MPI_COMM_WORLD, &comms[1]);
    MPI_Comm_split(MPI_COMM_WORLD, world_rank % 2, -world_rank, &comms[2]);
    const MPI_Op known[] = {MPI_SUM, MPI_MAX, MPI_MIN, MPI_PROD, MPI_BAND, MPI_BXOR, MPI_LAND};
    memcpy(operations, known, sizeof known);
    MPI_Op_create(compose, 0, &operations[7]);
    FILE *file = fopen(argv[1], "r");
    while (file != NULL && fgets(line, sizeof line, file) != NULL) {
        number++;
        if (sscanf(line, "%d %d %d %d %d %d %d %d", &words[0], &words[1], &words[2], &words[3], &words[4], &words[5],
                   &words[6], &words[7]) == 8)
            begin(number, words);
        else end_all();
    }
    if (file != NULL) fclose(file);
    MPI_Op_free(&operations[7]);
    MPI_Comm_free(&comms[1]);
    MPI_Comm_free(&comms[2]);
    fputs(told, stdout);
    MPI_Finalize();
    return 0;
}
