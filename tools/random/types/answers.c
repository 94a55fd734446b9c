/* Makes the types that a file tells of, line by line, and writes what calls answer of them: answers FILE ANSWERS. Two
 * ranks read the same file; rank 0 writes what it asks into ANSWERS.0, rank 1 what it receives into ANSWERS.1. The file
 * is written by tools/random/types/run, which has the answers by the definitions of MPI 3.1, 4.1. */
#include <mpi.h>

#include <stdint.h>
#include <stdio.h>
#include <stdlib.h>
#include <string.h>

enum { MOST = 64, HALF = 1 << 15, ALL = 2 * HALF };

static MPI_Datatype types[MOST];
static unsigned char memory[ALL], packed[ALL];
static const char *next;
static int rank;
static FILE *answers;

/* The next number of the line. */
static long number(void) {
    char *end;
    long read = strtol(next, &end, 10);
    if (end == next) {
        fprintf(stderr, "answers: a number lacks: %s", next);
        MPI_Abort(MPI_COMM_WORLD, 9);
    }
    next = end;
    return read;
}
static int numbers[MOST];
static int *list(int count, int at) {
    for (int i = 0; i < count; i++) numbers[at + i] = (int)number();
    return numbers + at;
}
static MPI_Aint addresses[MOST];
static MPI_Aint *address_list(int count) {
    for (int i = 0; i < count; i++) addresses[i] = number();
    return addresses;
}

static MPI_Datatype basic(long place) {
    static const MPI_Datatype all[] = {MPI_CHAR,   MPI_SHORT,       MPI_INT,        MPI_LONG,     MPI_FLOAT,
                                       MPI_DOUBLE, MPI_LONG_DOUBLE, MPI_C_BOOL,     MPI_UINT16_T, MPI_C_DOUBLE_COMPLEX,
                                       MPI_BYTE,   MPI_SHORT_INT,   MPI_DOUBLE_INT, MPI_WCHAR,    MPI_UNSIGNED_LONG};
    return all[place];
}
/* A type by its number: 1000 and more are basic ones. */
static MPI_Datatype type_of(long place) { return place >= 1000 ? basic(place - 1000) : types[place]; }

/* The CRC-32 of bytes, as zlib has it. */
static uint32_t sum_of(const unsigned char *bytes, size_t length) {
    uint32_t sum = 0xffffffff;
    for (size_t i = 0; i < length; i++) {
        sum ^= bytes[i];
        for (int bit = 0; bit < 8; bit++) sum = sum >> 1 ^ (sum & 1 ? 0xedb88320 : 0);
    }
    return ~sum;
}

/* Truth values are 0 and 1 in memory whose bytes are so. */
static void fill(long is_truth) {
    for (uint32_t i = 0; i < ALL; i++) memory[i] = (unsigned char)((i * 2654435761u >> 13) & (is_truth ? 1 : 255));
}

static void make_array(const char *word, MPI_Datatype *made) {
    if (word[0] == 's') {
        int ndims = (int)number(), *sizes = list(ndims, 0), *subsizes = list(ndims, 8), *starts = list(ndims, 16);
        int order = number() == 0 ? MPI_ORDER_C : MPI_ORDER_FORTRAN;
        MPI_Type_create_subarray(ndims, sizes, subsizes, starts, order, type_of(number()), made);
        return;
    }
    int size = (int)number(), own = (int)number(), ndims = (int)number(), *gsizes = list(ndims, 0);
    int *distribs = list(ndims, 8), *dargs = list(ndims, 16), *psizes = list(ndims, 24);
    static const int known[] = {MPI_DISTRIBUTE_NONE, MPI_DISTRIBUTE_BLOCK, MPI_DISTRIBUTE_CYCLIC};
    for (int i = 0; i < ndims; i++) {
        distribs[i] = known[distribs[i]];
        if (dargs[i] == 0) dargs[i] = MPI_DISTRIBUTE_DFLT_DARG;
    }
    int order = number() == 0 ? MPI_ORDER_C : MPI_ORDER_FORTRAN;
    MPI_Type_create_darray(size, own, ndims, gsizes, distribs, dargs, psizes, order, type_of(number()), made);
}

static void make_struct(MPI_Datatype *made) {
    MPI_Datatype olds[MOST];
    int count = (int)number(), *lengths = list(count, 0);
    MPI_Aint *places = address_list(count);
    for (int i = 0; i < count; i++) olds[i] = type_of(number());
    MPI_Type_create_struct(count, lengths, places, olds, made);
}

/* Blocks of one type: each of its own length, or all of one. */
static void make_blocks(const char *word, MPI_Datatype *made) {
    int count = (int)number();
    if (strcmp(word, "indexed") == 0) {
        int *lengths = list(count, 0), *places = list(count, MOST / 2);
        MPI_Type_indexed(count, lengths, places, type_of(number()), made);
    } else if (strcmp(word, "hindexed") == 0) {
        int *lengths = list(count, 0);
        MPI_Aint *places = address_list(count);
        MPI_Type_create_hindexed(count, lengths, places, type_of(number()), made);
    } else if (strcmp(word, "indexed_block") == 0) {
        int length = (int)number(), *places = list(count, 0);
        MPI_Type_create_indexed_block(count, length, places, type_of(number()), made);
    } else {
        int length = (int)number();
        MPI_Aint *places = address_list(count);
        MPI_Type_create_hindexed_block(count, length, places, type_of(number()), made);
    }
}

/* The rest of a line that makes a type, behind its word. */
static void make(const char *word) {
    MPI_Datatype *made = &types[number()];
    *made = MPI_DATATYPE_NULL;
    if (strcmp(word, "dup") == 0) MPI_Type_dup(type_of(number()), made);
    else if (strcmp(word, "contiguous") == 0) {
        int count = (int)number();
        MPI_Type_contiguous(count, type_of(number()), made);
    } else if (strcmp(word, "vector") == 0) {
        int *of = list(3, 0);
        MPI_Type_vector(of[0], of[1], of[2], type_of(number()), made);
    } else if (strcmp(word, "hvector") == 0) {
        int *of = list(2, 0);
        MPI_Aint stride = number();
        MPI_Type_create_hvector(of[0], of[1], stride, type_of(number()), made);
    } else if (strcmp(word, "resized") == 0) {
        MPI_Aint *of = address_list(2);
        MPI_Type_create_resized(type_of(number()), of[0], of[1], made);
    } else if (strcmp(word, "struct") == 0) make_struct(made);
    else if (strcmp(word, "subarray") == 0 || strcmp(word, "darray") == 0) make_array(word, made);
    else make_blocks(word, made);
    if (*made != MPI_DATATYPE_NULL) return;
    fprintf(answers, "refused\n");
    MPI_Type_dup(MPI_INT, made);
}

/* Prints bounds; packs items into a row and back; the same in external32. */
static void ask(void) {
    long place = number(), packs = number(), has_external = number(), is_truth = number();
    int count = (int)number(), size = -1, position = 0, end = 0;
    MPI_Datatype type = type_of(place);
    MPI_Aint lower, extent, true_lower, true_extent, length = 0, at = 0;
    MPI_Type_commit(&type);
    MPI_Type_size(type, &size);
    MPI_Type_get_extent(type, &lower, &extent);
    MPI_Type_get_true_extent(type, &true_lower, &true_extent);
    if (rank != 0) return;
    fprintf(answers, "bounds %d %ld %ld %ld %ld\n", size, (long)lower, (long)extent, (long)true_lower,
            (long)true_extent);
    if (!packs) return;
    fill(is_truth);
    MPI_Pack(memory + HALF, count, type, packed, ALL, &position, MPI_COMM_SELF);
    uint32_t row = sum_of(packed, (size_t)position);
    memset(memory, 0x5a, ALL);
    MPI_Unpack(packed, position, &end, memory + HALF, count, type, MPI_COMM_SELF);
    fprintf(answers, "packed %d %x %d %x\n", position, row, end, sum_of(memory, ALL));
    if (!has_external) return;
    fill(is_truth);
    MPI_Pack_external("external32", memory + HALF, count, type, packed, ALL, &length);
    row = sum_of(packed, (size_t)length);
    memset(memory, 0x5a, ALL);
    MPI_Unpack_external("external32", packed, length, &at, memory + HALF, count, type);
    fprintf(answers, "external %ld %x %ld %x\n", (long)length, row, (long)at, sum_of(memory, ALL));
}

/* Rank 0 sends items of one type, rank 1 receives items of another one with the
 * same signature. */
static void send(void) {
    int count = (int)number(), room;
    MPI_Datatype out = type_of(number()), in;
    room = (int)number();
    in = type_of(number());
    long is_truth = number();
    MPI_Type_commit(&out);
    MPI_Type_commit(&in);
    fill(is_truth);
    if (rank == 0) MPI_Send(memory + HALF, count, out, 1, 3, MPI_COMM_WORLD);
    if (rank != 1) return;
    MPI_Status status;
    int items = -1, elements = -1;
    memset(memory, 0x5a, ALL);
    MPI_Recv(memory + HALF, room, in, 0, 3, MPI_COMM_WORLD, &status);
    MPI_Get_count(&status, in, &items);
    MPI_Get_elements(&status, in, &elements);
    fprintf(answers, "received %x items %d elements %d\n", sum_of(memory, ALL), items == MPI_UNDEFINED ? -1 : items,
            elements == MPI_UNDEFINED ? -1 : elements);
}

/* What a line tells to do. */
static void follow(const char *word) {
    if (strcmp(word, "ask") == 0) ask();
    else if (strcmp(word, "send") == 0) send();
    else if (strcmp(word, "free") == 0) MPI_Type_free(&types[number()]);
    else if (strcmp(word, "#") == 0) fprintf(answers, "# %ld\n", number());
    else make(word);
}

int main(int argc, char **argv) {
    static char line[4096], name[4096];
    MPI_Init(&argc, &argv);
    MPI_Comm_rank(MPI_COMM_WORLD, &rank);
    MPI_Comm_set_errhandler(MPI_COMM_WORLD, MPI_ERRORS_RETURN);
    MPI_Comm_set_errhandler(MPI_COMM_SELF, MPI_ERRORS_RETURN);
    FILE *from = argc == 3 ? fopen(argv[1], "r") : NULL;
    if (argc == 3) snprintf(name, sizeof name, "%s.%d", argv[2], rank);
    answers = fopen(name, "w");
    if (from == NULL || answers == NULL) MPI_Abort(MPI_COMM_WORLD, 8);
    while (fgets(line, sizeof line, from) != NULL) {
        char word[20];
        int length = 0;
        if (sscanf(line, "%19s%n", word, &length) != 1) continue;
        next = line + length;
        follow(word);
    }
    fclose(from);
    fclose(answers);
    MPI_Finalize();
    return 0;
}
