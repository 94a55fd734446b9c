/* Types of several basic types in messages and collectives (MPI 3.1, 4.1.2, 5): structs, pairs, and what is made of
 * them, also below the buffer's address, and with other places at the other end. */
#include "test.h"

#include <stddef.h>

enum { MOST = 8 };

struct particle {
    char kind;
    double place[2];
    short charge;
};

static MPI_Datatype particle_type(void) {
    MPI_Datatype raw, made;
    MPI_Type_create_struct(3, (int[]){1, 2, 1},
                           (MPI_Aint[]){offsetof(struct particle, kind), offsetof(struct particle, place),
                                        offsetof(struct particle, charge)},
                           (MPI_Datatype[]){MPI_CHAR, MPI_DOUBLE, MPI_SHORT}, &raw);
    MPI_Type_create_resized(raw, 0, sizeof(struct particle), &made);
    MPI_Type_free(&raw);
    MPI_Type_commit(&made);
    return made;
}

/* The same basic types, packed closely and from the end on: the last item stands below the first one. */
static MPI_Datatype close_type(void) {
    MPI_Datatype raw, made;
    MPI_Type_create_struct(3, (int[]){1, 2, 1}, (MPI_Aint[]){-19, -18, -2},
                           (MPI_Datatype[]){MPI_CHAR, MPI_DOUBLE, MPI_SHORT}, &raw);
    MPI_Type_create_resized(raw, 0, -19, &made);
    MPI_Type_free(&raw);
    MPI_Type_commit(&made);
    return made;
}

static struct particle particle_of(int rank, int at) {
    return (struct particle){
        .kind = (char)('a' + at), .place = {rank + at / 8.0, -at}, .charge = (short)(100 * rank + at)};
}
static bool is_particle(struct particle it, int rank, int at) {
    struct particle wanted = particle_of(rank, at);
    return it.kind == wanted.kind && it.place[0] == wanted.place[0] && it.place[1] == wanted.place[1] &&
           it.charge == wanted.charge;
}
/* One that stands closely behind an address. */
static bool is_close(const unsigned char *at, int rank, int which) {
    struct particle found;
    memcpy(&found.kind, at, 1);
    memcpy(found.place, at + 1, 16);
    memcpy(&found.charge, at + 17, 2);
    return is_particle(found, rank, which);
}

static void check_messages(MPI_Datatype wide, MPI_Datatype close) {
    struct particle out[MOST];
    unsigned char in[MOST * 19 + 8];
    int next = (test_rank + 1) % test_size, before = (test_rank + test_size - 1) % test_size, count = -1;
    MPI_Status status;
    for (int i = 0; i < MOST; i++) out[i] = particle_of(test_rank, i);
    memset(in, 0x77, sizeof in);
    MPI_Sendrecv(out, MOST, wide, next, 1, in + 4 + MOST * 19, MOST, close, before, 1, MPI_COMM_WORLD, &status);
    MPI_Get_count(&status, close, &count);
    CHECK(count == MOST && is_all(in, 4, 0x77) && is_all(in + 4 + MOST * 19, 4, 0x77));
    for (int i = 0; i < MOST; i++) CHECK(is_close(in + 4 + (MOST - 1 - i) * 19, before, i));
}

static void check_collectives(MPI_Datatype wide, MPI_Datatype close) {
    struct particle own[2], *all = calloc((size_t)test_size * 2, sizeof *all);
    unsigned char row[2 * 19];
    for (int i = 0; i < 2; i++) own[i] = particle_of(test_rank, i);
    MPI_Gather(own, 2, wide, all, 2, wide, 0, MPI_COMM_WORLD);
    for (int i = 0; test_rank == 0 && i < 2 * test_size; i++) CHECK(is_particle(all[i], i / 2, i % 2));
    MPI_Scatter(all, 2, wide, row + 2 * 19, 2, close, 0, MPI_COMM_WORLD);
    CHECK(is_close(row + 19, test_rank, 0) && is_close(row, test_rank, 1));
    if (test_rank == 1) own[0] = particle_of(9, 3);
    MPI_Bcast(own, 1, wide, 1 % test_size, MPI_COMM_WORLD);
    CHECK(test_size == 1 || is_particle(own[0], 9, 3));
    free(all);
}

/* A pair of two types, and a type that is made of it. */
static void check_pairs(void) {
    struct {
        long value;
        int index;
    } pair = {70000000000 + test_rank, test_rank}, came = {0, 0};
    MPI_Datatype made;
    int next = (test_rank + 1) % test_size, before = (test_rank + test_size - 1) % test_size;
    MPI_Type_contiguous(1, MPI_LONG_INT, &made);
    MPI_Type_commit(&made);
    MPI_Sendrecv(&pair, 1, MPI_LONG_INT, next, 2, &came, 1, made, before, 2, MPI_COMM_WORLD, MPI_STATUS_IGNORE);
    CHECK(came.value == 70000000000 + before && came.index == before);
    MPI_Type_free(&made);
}

/* A type of several is freed while a message of it is on its way. */
static void check_freed(void) {
    MPI_Datatype type = particle_type();
    struct particle out = particle_of(test_rank, 2), in = {0};
    int next = (test_rank + 1) % test_size, before = (test_rank + test_size - 1) % test_size;
    MPI_Request request;
    MPI_Irecv(&in, 1, type, before, 3, MPI_COMM_WORLD, &request);
    MPI_Type_free(&type);
    type = particle_type();
    MPI_Send(&out, 1, type, next, 3, MPI_COMM_WORLD);
    MPI_Wait(&request, MPI_STATUS_IGNORE);
    CHECK(is_particle(in, before, 2));
    MPI_Type_free(&type);
}

int main(int argc, char **argv) {
    test_begin(&argc, &argv);
    MPI_Datatype wide = particle_type(), close = close_type();
    check_messages(wide, close);
    check_collectives(wide, close);
    check_pairs();
    check_freed();
    MPI_Type_free(&wide);
    MPI_Type_free(&close);
    return test_end();
}
