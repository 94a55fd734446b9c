/* The basic types (MPI 3.1, 3.2.2): their sizes, extents, names, and that they carry every value. */
#include "test.h"

static const struct named_type types[] = {INTEGER_TYPES, OTHER_TYPES};
enum { TYPES = sizeof types / sizeof *types, COUNT = 37 };

/* What is known of a type. */
static void check_facts(struct named_type it) {
    int size = -1, length = -1;
    MPI_Aint lower = -1, extent = -1;
    char name[MPI_MAX_OBJECT_NAME];
    MPI_Type_size(it.type, &size);
    MPI_Type_get_extent(it.type, &lower, &extent);
    MPI_Type_get_name(it.type, name, &length);
    CHECK(size == it.size);
    CHECK(lower == 0 && extent == it.size);
    CHECK(strcmp(name, it.name) == 0);
    CHECK(length == (int)strlen(it.name));
}

/* Some elements go from rank 0 to rank 1 and come back: not a bit changes. */
static void check_carried(struct named_type it, int number) {
    unsigned char row[COUNT * 16 + 1], back[COUNT * 16 + 1];
    size_t bytes = (size_t)(COUNT * it.size);
    MPI_Status status;
    int count = -1, elements = -1;
    memset(row, 0xa5, sizeof row);
    memset(back, 0xa5, sizeof back);
    fill(row, bytes, (unsigned)number);
    if (test_rank == 0) {
        MPI_Send(row, COUNT, it.type, 1, number, MPI_COMM_WORLD);
        MPI_Recv(back, COUNT, it.type, 1, number, MPI_COMM_WORLD, &status);
        CHECK(is_filled(back, bytes, (unsigned)number));
    } else if (test_rank == 1) {
        MPI_Recv(back, COUNT, it.type, 0, number, MPI_COMM_WORLD, &status);
        CHECK(is_filled(back, bytes, (unsigned)number));
        MPI_Send(back, COUNT, it.type, 0, number, MPI_COMM_WORLD);
    } else {
        return;
    }
    CHECK(back[bytes] == 0xa5);
    MPI_Get_count(&status, it.type, &count);
    MPI_Get_elements(&status, it.type, &elements);
    CHECK(count == COUNT && elements == COUNT);
}

/* A name that is set is told; a longer one than fits is cut. */
static void check_names(void) {
    MPI_Datatype pair;
    char name[MPI_MAX_OBJECT_NAME], longer[2 * MPI_MAX_OBJECT_NAME];
    int length = -1;
    MPI_Type_contiguous(2, MPI_INT, &pair);
    MPI_Type_get_name(pair, name, &length);
    CHECK(length == 0 && name[0] == '\0');
    MPI_Type_set_name(pair, "a pair");
    MPI_Type_get_name(pair, name, &length);
    CHECK(length == 6 && strcmp(name, "a pair") == 0);
    memset(longer, 'x', sizeof longer);
    longer[MPI_MAX_OBJECT_NAME - 1] = '\0';
    MPI_Type_set_name(pair, longer);
    MPI_Type_get_name(pair, name, &length);
    CHECK(length == MPI_MAX_OBJECT_NAME - 1 && strcmp(name, longer) == 0);
    MPI_Type_free(&pair);
}

int main(int argc, char **argv) {
    test_begin(&argc, &argv);
    for (int number = 0; number < TYPES; number++) {
        check_facts(types[number]);
        check_carried(types[number], number);
    }
    CHECK(MPI_LONG_LONG == MPI_LONG_LONG_INT);
    check_names();
    return test_end();
}
